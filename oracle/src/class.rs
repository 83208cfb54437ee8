// What a class of requests is, and what comparing one request gives.
use crate::random::Random;
use crate::side::{Side, Spot};
use crate::titles::{Title, folder, stop, titles};
use crate::walk::{stream_at, walk};
use std::panic::{AssertUnwindSafe, catch_unwind};

// What both sides are asked: bytes, and up to four numbers whose meaning is the class's.
#[derive(Clone, Default)]
pub struct Request {
    pub bytes: Vec<u8>,
    pub n: [usize; 4],
}

// What real titles give: index texts, files cut from one cue to the next, and the units in them, of the first stream at each cue.
pub struct World {
    pub texts: Vec<String>,
    pub files: Vec<Vec<u8>>,
    pub units: Vec<Vec<u8>>,
}

impl World {
    pub fn new() -> World {
        let mut world = World { texts: Vec::new(), files: Vec::new(), units: Vec::new() };
        for Title { text, file, positions, .. } in titles() {
            world.texts.push(text);
            for (i, &from) in positions.iter().enumerate() {
                let to = positions.get(i + 1).copied().unwrap_or(file.len()).min(file.len());
                if from < to {
                    let part = &file[from..to];
                    let alone = walk(part, 0, stream_at(part, 0)).copy(part);
                    if let Spot::Unit { unit, .. } = (crate::original::adapter::SIDE.spot)(&alone, 0) {
                        world.files.push(part.to_vec());
                        world.units.push(unit);
                    }
                }
            }
        }
        if world.units.is_empty() {
            stop(&folder(), "no title has a cue with a unit");
        }
        world
    }
}

impl Default for World {
    fn default() -> Self {
        World::new()
    }
}

// What a request showed.
#[derive(Default)]
pub struct Outcome {
    // The port's refusal, 0 where it accepts.
    pub refusal: u8,
    // Whether the original accepts too.
    pub both: bool,
    // A rule of docs/DIFFERENCES.md under which the original was not followed; what the rule says was checked instead.
    pub rule: Option<&'static str>,
    // A rule under which the original was asked about other bytes than the port, and followed; `rule` may apply besides.
    pub copied: Option<&'static str>,
    // The rule of the text of no bytes, about which the original was not asked; the other two may apply besides.
    pub empty: Option<&'static str>,
    // The rule of a time that leaves signed 64 bits, where the original paints; `rule` and `copied` may apply besides.
    pub long: Option<&'static str>,
    // What the request is counted for, by the names in the class's `met`.
    pub met: Vec<&'static str>,
    // Where the two differ.
    pub differs: Option<String>,
    // Where the original panicked: its words.
    pub panicked: Option<String>,
}

impl Outcome {
    pub fn rules(&self) -> impl Iterator<Item = &'static str> {
        [self.rule, self.copied, self.empty, self.long].into_iter().flatten()
    }

    // Notes a difference unless the condition holds.
    pub fn must(&mut self, holds: bool, what: impl FnOnce() -> String) {
        if !holds && self.differs.is_none() {
            self.differs = Some(what());
        }
    }
}

pub struct Class {
    pub name: &'static str,
    // A fixed part, the same in every run.
    pub fixed: fn(&World, &mut dyn FnMut(Request)),
    pub generate: fn(&World, &mut Random) -> Request,
    pub compare: fn(&Side, &Request) -> Outcome,
    // Refusals that generated requests must meet 50 times at least.
    pub refusals: &'static [u8],
    // What else they must meet, 300 times at least.
    pub met: &'static [&'static str],
    // And what in as many requests as the short run generates, or more.
    pub rarer: &'static [&'static [&'static str]],
    // Whether a quarter of the generated requests must be accepted by both sides.
    pub accepted: bool,
    // What the number of generated requests is divided by: fewer of those that take long.
    pub dear: u64,
}

// What the original does, or the words of its panic.
pub fn tried<T>(f: impl FnOnce() -> T) -> Result<T, String> {
    catch_unwind(AssertUnwindSafe(f)).map_err(|e| {
        e.downcast_ref::<String>().cloned().or_else(|| e.downcast_ref::<&str>().map(|s| s.to_string())).unwrap_or_else(|| "a panic".into())
    })
}

// Lent memory starts with this pattern, so that what is written shows.
pub const BYTE: u8 = 0xA5;
pub const WORD: u16 = 0xA5C3;
// Positions start with its low 32 bits, in which no byte is 0 and no two are the same.
pub const NUMBER: usize = 0xA5C3_5A3C_0FF0_9669;
pub const START: i64 = 0x5AC3_5A3C_0FF0_9669;

// A sum over numbers in turn, for the fixed list, as crates/replay makes it.
#[derive(Clone, Copy)]
pub struct Sum(pub u64);

impl Default for Sum {
    fn default() -> Self {
        Sum(1)
    }
}

impl Sum {
    pub fn add(&mut self, v: usize) {
        self.0 = (self.0 * 31 + v as u64 % 1_000_003) % 4_294_967_291;
    }

    // The sign, and how far it is from 0 or from -1.
    pub fn signed(&mut self, v: i64) {
        self.add((v < 0) as usize);
        self.add(if v < 0 { -1 - v } else { v } as usize);
    }

    pub fn all<T: Copy + Into<u64>>(&mut self, vs: &[T]) {
        for &v in vs {
            self.add(Into::<u64>::into(v) as usize);
        }
    }
}

// Bytes in hexadecimal, cut where they are many.
pub fn hex(bytes: &[u8]) -> String {
    let shown: String = bytes.iter().take(400).map(|b| format!("{b:02X} ")).collect();
    if bytes.len() > 400 { format!("{shown}.. ({} bytes)", bytes.len()) } else { shown.trim_end().to_string() }
}
