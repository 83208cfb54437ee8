// Positions are stored in 32 bits; the original's have 64. A line with a greater one is refused with 41, where the original
// accepts it. Where 41 is asked for is worked out here, beside both sides, from what the original says of the text up to each
// line and of each line by itself; anywhere else 41 is a difference.
use crate::class::Outcome;
use crate::side::{Line, Said, Stored};
use std::cmp::Ordering;

pub const GREATER: &str = "41: a position above 4,294,967,295; the original accepts the line";

fn above(position: u64) -> bool {
    position > u32::MAX as u64
}

// In a line 41 comes after what the original refuses it with, and before 10.
fn first(lines: &[Line], room: usize) -> Option<(usize, u8)> {
    lines.iter().enumerate().find_map(|(i, line)| {
        let number = match line {
            _ if line.refusal > 0 => line.refusal,
            _ if line.position.is_some_and(above) => 41,
            _ if line.cues > room => 10,
            _ => 0,
        };
        (number > 0).then_some((i, number))
    })
}

pub const STORED: Stored = Stored { above, first };

// What generated requests must meet: the greatest position that is stored, and a greater one that is not read,
pub const LAST: &str = "accepted, with a position of FFFFFFFF";
pub const LAST_PAST: &str = "12, of a cue at FFFFFFFF";
pub const UNREAD: &str = "accepted, with a greater position in a part that is not read";
// the least that is refused, the greatest, and one that is no hexadecimal number of 64 bits,
pub const LEAST: &str = "41, by a position of 100000000";
pub const MOST: &str = "41, by a position of FFFFFFFFFFFFFFFF";
pub const DECIMAL: &str = "41, by a decimal position of 17 digits or more";
// which line has it,
pub const EARLIER: &str = "41, in an earlier line than that of the cue";
pub const ITS: &str = "41, in the line of the cue";
pub const LATER: &str = "41, in a later line than that of the cue";
// what would be refused after 41,
pub const NO_ROOM: &str = "41, in the line of a cue that has no room";
pub const NO_CUE: &str = "41, with a cue that the text does not have";
pub const NO_STREAM: &str = "41, with a stream above 31";
pub const AFTER: &str = "41, with a faulty line after it";
pub const FULL_AFTER: &str = "41, with a cue too many in a line after it";
// and what is refused before it.
pub const BYTE: &str = "1, with a greater position";
pub const FAULTY: [&str; 8] = [
    "2, with a greater position in a line after it",
    "3, with a greater position in a line after it",
    "4, with a greater position in a line after it",
    "5, with a greater position in a line after it",
    "6, with a greater position in a line after it",
    "7, with a greater position in a line after it",
    "8, with a greater position in a line after it",
    "9, with a greater position in a line after it",
];
pub const FULL: &str = "10, with a greater position in a line after it";

// The position that the original reads in a line by itself.
fn read(line: &str) -> Option<u64> {
    let index = crate::class::tried(|| (crate::original::adapter::SIDE.index)(line)).ok()?.ok()?;
    index.cues.first().map(|cue| cue.1)
}

// What of each part of a line follows the word `filepos:`.
fn positions(line: &str) -> Vec<&str> {
    let rest = line.trim().trim_start_matches("timestamp:");
    rest.split(',').filter_map(|part| part.trim().strip_prefix("filepos:")).map(str::trim).collect()
}

fn decimal(line: &str) -> bool {
    positions(line).last().is_some_and(|text| u64::from_str_radix(text.trim_start_matches("0x"), 16).is_err())
}

fn unread(line: &str) -> bool {
    let positions = positions(line);
    let greater = |text| read(&format!("timestamp:0,filepos:{text}")).is_some_and(above);
    positions.len() > 1 && read(line).is_some() && positions[..positions.len() - 1].iter().any(greater)
}

// What a request is counted for by its text and, where one cue is asked for, the number of that.
pub fn met(o: &Outcome, bytes: &[u8], said: &Said, cue: Option<usize>) -> Vec<&'static str> {
    let mut met = Vec::new();
    let mut meets = |holds: bool, what| met.extend(holds.then_some(what));
    let mut lines = bytes.split(|&b| b == b'\n').filter(|line| line.is_ascii()).map(|line| std::str::from_utf8(line).expect("bytes below 80"));
    if o.both {
        meets(said.last, LAST);
        meets(lines.clone().any(unread), UNREAD);
    }
    if o.refusal == 1 {
        meets(lines.clone().any(|line| read(line).is_some_and(above)), BYTE);
    }
    match said.at {
        Some((i, 41)) => {
            let line = &said.lines[i];
            meets(line.position == Some(1 << 32), LEAST);
            meets(line.position == Some(u64::MAX), MOST);
            meets(lines.nth(i).is_some_and(decimal), DECIMAL);
            meets(line.cues > said.room, NO_ROOM);
            meets(said.lines[i + 1..].iter().any(|line| line.refusal > 0), AFTER);
            meets(line.cues <= said.room && said.lines[i + 1..].iter().any(|line| line.cues > said.room), FULL_AFTER);
            let cues = |lines: &[Line]| lines.iter().filter(|line| line.position.is_some()).count();
            if let Some(cue) = cue {
                let place = match cue.cmp(&cues(&said.lines[..i])) {
                    Ordering::Less => LATER,
                    Ordering::Equal => ITS,
                    Ordering::Greater => EARLIER,
                };
                meets(true, if cue < cues(&said.lines) { place } else { NO_CUE });
            }
        }
        Some((i, number)) => {
            let after = said.lines[i + 1..].iter().any(|line| line.position.is_some_and(above));
            match number {
                2..=9 => meets(after, FAULTY[number as usize - 2]),
                _ => meets(after, FULL),
            }
        }
        None => {}
    }
    met
}
