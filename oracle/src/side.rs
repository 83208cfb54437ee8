// The original in the terms in which both sides are compared.
use crate::Counts;
use crate::empty::NO_BYTES;
use crate::limit::MANY;
use crate::port::{NUMBERS, START, STOP};
use crate::times::LONG;

// What the original has at a position of a file.
pub enum Spot {
    // The cue is left out.
    Skipped,
    // No unit; `handed_on` says that the rest of the file goes to the decoder instead.
    None { handed_on: bool },
    // A unit; `same` says that it is also what goes to the decoder.
    Unit { unit: Vec<u8>, joined: bool, same: bool },
}

// A unit, with the numbers of its record in the order of include/vobsub.h. Whether there is a start or a stop, and the
// numbers of codes and of clipped codes, are 0: the original does not say.
pub struct Decoded {
    pub numbers: [usize; NUMBERS],
    pub width: usize,
    pub height: usize,
    pub map: Vec<u8>,
    pub words: Vec<u16>,
}

// What an index text says: the size, the palette as red, green and blue of 16 entries, whether there is one, and start and position of each cue.
#[derive(Clone, Debug, Default, PartialEq)]
pub struct Index {
    pub size: (u16, u16),
    pub palette: Vec<u8>,
    pub has_palette: bool,
    pub cues: Vec<(i64, u64)>,
}

// What the original makes of a cue of an index and a file.
pub enum Seen {
    // It has no packet.
    Skipped,
    // No unit: its packet has the rest of the file instead, if `handed_on`, and its decoder refuses that, if `refused`.
    None { handed_on: bool, refused: bool },
    // Its unit, which is also what its packet has, if `same`.
    Unit { unit: Vec<u8>, joined: bool, same: bool, shows: Result<Box<Painted>, String> },
}

// A cue's frame, and the record of its unit.
pub struct Painted {
    pub start: Option<i64>,
    pub duration: Option<i64>,
    pub decoded: Decoded,
    // The frame's own time, bytes a line, and bytes.
    pub time: Option<i64>,
    pub stride: usize,
    pub canvas: Vec<u8>,
}

#[derive(Clone, Copy)]
pub struct Side {
    pub pes_body: fn(&[u8]) -> Option<usize>,
    pub spot: fn(&[u8], usize) -> Spot,
    pub bands: fn(&[u8]) -> Result<Vec<u16>, String>,
    pub field: fn(&[u8], usize, usize, usize, &mut [u8]) -> Result<(), String>,
    pub unit: fn(&[u8]) -> Result<Decoded, String>,
    pub positions: fn(&str) -> Vec<usize>,
    pub index: fn(&str) -> Result<Index, String>,
    // The duration of a cue with this start, if another with that start follows it.
    pub duration: fn(i64, Option<i64>) -> Option<i64>,
    // The cue with that number; `alone` leaves out all others, and with them its duration. The decoder is made with
    // the index's palette, which may have no bytes.
    pub seen: fn(&Index, &[u8], usize, bool) -> Seen,
    pub write: fn(u16, u16, &[u8]) -> Vec<u8>,
    pub counting: Counting,
    pub empty: Empty,
    pub limit: Limit,
    pub stored: Stored,
    pub times: Times,
}

// The copy that counts codes and bands and says whether a start and a stop stood, which the original does not: called in `counted`.
#[derive(Clone, Copy)]
pub struct Counting {
    pub bands: fn(&[u8]) -> Result<Vec<u16>, String>,
    pub field: fn(&[u8], usize, usize, usize, &mut [u8]) -> Result<(), String>,
    pub unit: fn(&[u8]) -> Result<Decoded, String>,
}

// The text of no bytes, about which the original is not asked.
#[derive(Clone, Copy)]
pub struct Empty {
    // Whether a text is that one.
    pub no_bytes: fn(&[u8]) -> bool,
    // Whether buffers of so many starts and positions have room for its cue.
    pub has_room: fn(usize, usize) -> bool,
    pub index: fn() -> Index,
}

impl Empty {
    // The rule, where the text is that one.
    pub fn rule(&self, text: &[u8]) -> Option<&'static str> {
        (self.no_bytes)(text).then_some(NO_BYTES)
    }
}

// The limit of 32 bands, which the original does not have.
#[derive(Clone, Copy)]
pub struct Limit {
    // Whether 34 is asked for of so many bands, where the original gives that refusal; 0 where it accepts.
    pub asked: fn(usize, u8) -> bool,
}

impl Limit {
    // The rule, where 34 is asked for.
    pub fn rule(&self, counts: Counts, refusal: u8) -> Option<&'static str> {
        (self.asked)(counts.bands, refusal).then_some(MANY)
    }
}

// A line of an index text, by what the original says.
pub struct Line {
    // Of the text up to it and with it: the refusal, or 0 and how many cues there are.
    pub refusal: u8,
    pub cues: usize,
    // Of the line by itself: the position, where it is accepted as a cue.
    pub position: Option<u64>,
}

// What is known of the positions of an index text, with room for so many cues.
#[derive(Default)]
pub struct Said {
    // Whether it is accepted with the greatest position that is stored.
    pub last: bool,
    // Its lines, but where the original accepts it and no position is above that one.
    pub lines: Vec<Line>,
    // The first of them that is refused, and the number.
    pub at: Option<(usize, u8)>,
    pub room: usize,
}

// The bound of 32 bits that positions have; the original's is 64.
#[derive(Clone, Copy)]
pub struct Stored {
    // Whether a position is above it.
    pub above: fn(u64) -> bool,
    // The first line that is refused, where there is room for so many cues, and the number.
    pub first: fn(&[Line], usize) -> Option<(usize, u8)>,
}

// What a cue's times are worked out from: its start, and the delays of its first start and last stop, of those that stood.
#[derive(Clone, Copy)]
pub struct Delays {
    pub from: i64,
    pub start: Option<usize>,
    pub stop: Option<usize>,
}

impl Delays {
    // The original's own start and delays; what stood, its counting copy says.
    pub fn of(from: i64, decoded: &Decoded, counts: Counts) -> Delays {
        let delay = |stood: bool, place: usize| stood.then_some(decoded.numbers[place]);
        Delays { from, start: delay(counts.started, START), stop: delay(counts.stopped, STOP) }
    }
}

// The show and the hide time of a cue, which the original does not give.
#[derive(Clone, Copy)]
pub struct Times {
    pub show: fn(Delays) -> Option<i128>,
    pub hide: fn(Delays) -> Option<i128>,
    // Whether a time is outside signed 64 bits.
    pub leaves: fn(i128) -> bool,
}

impl Times {
    // The show time and the hide time, those that there are.
    pub fn of(&self, cue: Delays) -> [Option<i128>; 2] {
        [(self.show)(cue), (self.hide)(cue)]
    }

    // The rule, where a time that there is leaves.
    pub fn rule(&self, cue: Delays) -> Option<&'static str> {
        self.of(cue).into_iter().flatten().any(self.leaves).then_some(LONG)
    }
}

// The refusal that a message of the original stands for, by a part of the message. The first part that is found counts.
pub fn number_of(message: &str) -> u8 {
    const PARTS: &[(&str, u8)] = &[
        ("too short", 15),
        ("inconsistent", 16),
        ("< 2", 18),
        ("LN_CTLI", 19),
        ("PX_CTLI", 19),
        ("truncated", 17),
        ("unknown", 20),
        ("inverted", 21),
        ("out of range", 25),
        ("ran out", 26),
    ];
    PARTS.iter().find(|p| message.contains(p.0)).map_or(255, |p| p.1)
}
