// Fields of run codes. n: width, height, start row, bytes of the map.
use crate::class::*;
use crate::port;
use crate::random::Random;
use crate::side::{Side, number_of};
use crate::{CLIPPED, EXACT, LONG_FILL};

pub const CLASS: Class = Class { name: "fields", fixed, generate, compare, refusals: &[22, 26], met: &[CLIPPED, EXACT, LONG_FILL], rarer: &[], accepted: true, dear: 1 };

fn fixed(_: &World, each: &mut dyn FnMut(Request)) {
    // every code of up to four nibbles in a row that it does not fill, that it fills, and that it clips to
    for width in [1, 2, 300] {
        for code in 0..=65535u32 {
            each(Request { bytes: vec![(code >> 8) as u8, code as u8, 0, 1], n: [width, 1, 0, width] });
        }
    }
    // every run in a row that is one pixel shorter, as long and one longer; a fill follows
    for value in 4..1024 {
        let run = value / 4;
        for width in run - 1..=run + 1 {
            let mut nibbles = Vec::new();
            put(&mut nibbles, value);
            put(&mut nibbles, FILL + 1);
            each(Request { bytes: packed(nibbles, 0), n: [width, 1, 0, width] });
        }
    }
    // every short field
    for height in 0..4 {
        for start in 0..2 {
            for width in 0..4 {
                each(Request { bytes: vec![], n: [width, height, start, width * height] });
                for b in 0..=255u8 {
                    each(Request { bytes: vec![b], n: [width, height, start, width * height] });
                }
            }
        }
    }
}

// In `put` a fill is this and its number, which is below 256 like those of shorter codes.
const FILL: usize = 65536;

fn put(nibbles: &mut Vec<u8>, value: usize) {
    let size = match value {
        0..16 => 1,
        16..64 => 2,
        64..256 => 3,
        _ => 4,
    };
    for i in (0..size).rev() {
        nibbles.push((value >> (4 * i) & 15) as u8);
    }
}

// Nibbles as bytes, with one more where the last byte has half.
fn packed(mut nibbles: Vec<u8>, filler: u8) -> Vec<u8> {
    if nibbles.len() % 2 == 1 {
        nibbles.push(filler);
    }
    nibbles.chunks(2).map(|p| p[0] << 4 | p[1]).collect()
}

// The codes of rows of that width, each on a byte of its own.
pub fn rows(r: &mut Random, width: usize, count: usize) -> Vec<u8> {
    let mut bytes = Vec::new();
    for _ in 0..count {
        let mut nibbles = Vec::new();
        let mut left = width;
        while left > 0 {
            let value = match r.below(7) {
                0 | 1 => r.within(4, 15),
                2 => r.within(16, 63),
                3 => r.within(64, 255),
                4 => r.within(256, 1023),
                // a run as long as what is left, or one pixel off
                5 => (left + r.below(3) - 1).clamp(1, 255) * 4 + r.below(4),
                _ => FILL + r.below(256),
            };
            put(&mut nibbles, value);
            left = if value >= FILL { 0 } else { left.saturating_sub(value / 4) };
        }
        bytes.extend(packed(nibbles, r.byte() & 15));
    }
    bytes
}

fn generate(world: &World, r: &mut Random) -> Request {
    let width = if r.once_in(12) { r.within(1, 2000) } else if r.once_in(40) { 0 } else { r.within(1, 60) };
    let height = if r.once_in(20) { r.below(200) } else { r.below(12) };
    let start = if r.once_in(12) { r.below(20) } else { r.below(2) };
    let count = (height + 1).saturating_sub(start) / 2;
    let mut bytes = if r.once_in(30) && !world.units.is_empty() {
        r.pick(&world.units)[4..].iter().take(600).copied().collect()
    } else {
        rows(r, width, count)
    };
    let mut room = width * height + if r.once_in(3) { r.below(9) } else { 0 };
    let mut n = [width, height, start];
    match r.below(10) {
        0 | 1 => bytes.truncate(r.below(bytes.len() + 1)),
        2 if !bytes.is_empty() => {
            let i = r.below(bytes.len());
            bytes[i] = r.byte();
        }
        3 => room = room.saturating_sub(1 + r.below(4)),
        4 if r.once_in(6) => n[r.below(3)] = usize::MAX - r.below(3),
        5 => {
            let some = r.below(4);
            bytes.extend(r.bytes(some));
        }
        _ => {}
    }
    Request { bytes, n: [n[0], n[1], n[2], room] }
}

fn compare(side: &Side, q: &Request) -> Outcome {
    let [width, height, start, room] = q.n;
    let mut map = vec![BYTE; room];
    let (mut codes, mut clipped) = (NUMBER, NUMBER);
    let refusal = port::field(&q.bytes, width, height, start, &mut map, &mut codes, &mut clipped);
    let mut o = Outcome { refusal, ..Default::default() };
    let short = width.checked_mul(height).is_none_or(|pixels| pixels > room);
    let mut theirs = vec![BYTE; room];
    let answer = if width == 0 { None } else { Some(tried(|| (side.field)(&q.bytes, width, height, start, &mut theirs))) };
    if short {
        o.rule = Some("22: a map is lent, and too short");
        o.must(refusal == 22, || format!("a map of {room} bytes for {width} by {height}; the port says {refusal}"));
        o.panicked = answer.and_then(|a| a.err());
    } else {
        match answer {
            None => {
                o.rule = Some("rows of width 0");
                o.must((refusal, codes, clipped) == (0, 0, 0), || format!("width 0; the port says {refusal}, {codes} codes, {clipped} clipped"));
            }
            Some(Err(words)) => o.panicked = Some(words),
            Some(Ok(Err(message))) => {
                let number = number_of(&message);
                o.must(refusal == number, || format!("the original says {message:?}, so {number}; the port says {refusal}"));
                if theirs.iter().any(|&b| b != BYTE) {
                    o.rule = Some("the map where a field runs out is as found");
                }
            }
            Some(Ok(Ok(()))) => {
                o.both = refusal == 0;
                o.must(refusal == 0, || format!("the original accepts; the port says {refusal}"));
                o.must(map == theirs, || "the map".into());
                theirs.fill(BYTE);
                let counts = crate::counted(|| (side.counting.field)(&q.bytes, width, height, start, &mut theirs));
                o.must(map == theirs, || "the map of the copy that counts".into());
                o.must(codes == counts.codes, || format!("{} codes; the port says {codes}", counts.codes));
                o.must(clipped == counts.clipped, || format!("{} clipped codes; the port says {clipped}", counts.clipped));
                o.met.extend(counts.met().filter(|_| o.both));
            }
        }
    }
    o.must(refusal == 0 || map.iter().all(|&b| b == BYTE), || "the map is written on a refusal".into());
    o.must(refusal == 0 || codes == NUMBER, || "the number of codes is written on a refusal".into());
    o.must(refusal == 0 || clipped == NUMBER, || "the number of clipped codes is written on a refusal".into());
    o
}
