// The walk over the packets at a position, for one stream: worked out here, beside both sides, to tell which requests have other streams on it.
use std::borrow::Cow;

pub const TOP_STREAM: usize = 31;
pub const FIRST_ID: u8 = 0x20;

// The rules by which a named stream leaves the original, which joins all of them.
pub const OTHERS: &str = "2.6: other streams on the walk; the original is asked about a copy with their ids set to 00";
pub const ABOVE: &str = "32: a stream is named, and above 31";

// What generated requests must meet.
pub const PARTED: &str = "a unit joined from two parts or more with another stream between";
pub const ABSENT: &str = "no unit of the stream among the packets of others";

// The private_stream_1 bodies that have a byte, from a position up to where the original's walk stops: where the id is, and where each ends.
pub struct Bodies<'a> {
    file: &'a [u8],
    at: usize,
}

impl Iterator for Bodies<'_> {
    type Item = (usize, usize);

    fn next(&mut self) -> Option<(usize, usize)> {
        loop {
            let rest = self.file.get(self.at..)?;
            let [0, 0, 1, code, ..] = *rest else { return None };
            let from = self.at;
            if code == 0xBA {
                self.at += match *rest.get(4)? {
                    b if b & 0xC0 == 0x40 => 14 + (rest.get(13)? & 7) as usize,
                    b if b & 0xF0 == 0x20 => 12,
                    _ => return None,
                };
                continue;
            }
            if code == 0xB9 {
                return None;
            }
            self.at += 6 + word(rest.get(4..6)?);
            if code == 0xBD {
                let pes = self.file.get(from + 6..self.at)?;
                let body = from + 6 + (crate::original::adapter::SIDE.pes_body)(pes)?;
                if body < self.at {
                    return Some((body, self.at));
                }
            }
        }
    }
}

fn word(s: &[u8]) -> usize {
    u16::from_be_bytes([s[0], s[1]]) as usize
}

// A bare unit has no walk.
pub fn bodies(file: &[u8], position: usize) -> Bodies<'_> {
    let rest = file.get(position..).unwrap_or(&[]);
    let bare = rest.len() >= 4 && (4..=rest.len()).contains(&word(rest));
    Bodies { file, at: if bare { file.len() } else { position } }
}

// The stream of the first body on the walk that has one, or else 0.
pub fn stream_at(file: &[u8], position: usize) -> usize {
    let ids = bodies(file, position).map(|(at, _)| file[at]);
    ids.filter(|&id| is_id(id)).map(|id| (id - FIRST_ID) as usize).next().unwrap_or(0)
}

fn is_id(b: u8) -> bool {
    (FIRST_ID..=FIRST_ID + TOP_STREAM as u8).contains(&b)
}

// A stream's walk, which ends with its unit where there is one.
#[derive(Default)]
pub struct Walk {
    // Where the ids of other streams are.
    pub others: Vec<usize>,
    // Whether there is a unit, with bytes from both sides of another stream's body.
    pub parted: bool,
}

pub fn walk(file: &[u8], position: usize, stream: usize) -> Walk {
    let mut walk = Walk::default();
    // what the stream keeps, and how much of it stands before each body of another
    let (mut kept, mut before) = (Vec::new(), Vec::new());
    for (at, end) in bodies(file, position) {
        if file[at] as usize == FIRST_ID as usize + stream {
            kept.extend(&file[at + 1..end]);
            if kept.len() >= 2 && kept.len() >= word(&kept) {
                walk.parted = before.iter().any(|&n| n > 0 && n < word(&kept));
                break;
            }
        } else if is_id(file[at]) {
            walk.others.push(at);
            before.push(kept.len());
        }
    }
    walk
}

impl Walk {
    // What the original is asked about: the file, with the ids of other streams set to 00.
    pub fn copy<'a>(&self, file: &'a [u8]) -> Cow<'a, [u8]> {
        let mut file = Cow::Borrowed(file);
        for &at in &self.others {
            file.to_mut()[at] = 0;
        }
        file
    }

    // The rule of the copy, where there is one.
    pub fn rule(&self) -> Option<&'static str> {
        (!self.others.is_empty()).then_some(OTHERS)
    }
}
