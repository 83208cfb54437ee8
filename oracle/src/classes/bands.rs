// Payloads of colour changes.
use crate::class::*;
use crate::classes::crowd;
use crate::limit;
use crate::port;
use crate::random::Random;
use crate::side::{Side, number_of};

pub const CLASS: Class = Class {
    name: "bands",
    fixed,
    generate,
    compare,
    refusals: &[19, 34],
    met: &[],
    rarer: &[&limit::NO_ENTRY, &limit::ENTRIES, &limit::WORDS, &[limit::BEFORE[2]]],
    accepted: true,
    dear: 1,
};

const ALPHABET: [u8; 10] = [0x00, 0x01, 0x0F, 0x10, 0x1F, 0x20, 0x7F, 0xF0, 0xFE, 0xFF];

fn fixed(_: &World, each: &mut dyn FnMut(Request)) {
    let n = [0; 4];
    each(Request { bytes: vec![], n });
    for a in 0..=255u8 {
        each(Request { bytes: vec![a], n });
        for b in 0..=255u8 {
            each(Request { bytes: vec![a, b], n });
        }
    }
    for i in 0..10_000usize {
        let bytes: Vec<u8> = [1, 10, 100, 1000].iter().map(|d| ALPHABET[i / d % 10]).collect();
        each(Request { bytes, n });
    }
    // up to 66 bands of that many entries, then nothing, the end mark, a header behind it, and half a header
    for (count, entries) in (0..=66).flat_map(|count| (0..=15).map(move |entries| (count, entries))) {
        let mut bytes = Vec::new();
        for band in 0..count {
            header(&mut bytes, band, band + 1, entries);
            for i in 0..entries {
                bytes.extend([0, (band + i) as u8, band as u8, i as u8, entries as u8, count as u8]);
            }
        }
        for tail in [&[][..], &[0x0F, 0xFF, 0xFF, 0xFF], &[0x0F, 0xFF, 0xFF, 0xFF, 0, 0, 0, 0], &[0, 0]] {
            each(Request { bytes: [&bytes, tail].concat(), n });
        }
    }
}

pub fn header(out: &mut Vec<u8>, first: usize, last: usize, entries: usize) {
    out.extend([(first / 256) as u8, first as u8, (entries * 16 + last / 256) as u8, last as u8]);
}

// Where a picture is on the display, and its size.
pub struct Area {
    pub x: usize,
    pub y: usize,
    pub width: usize,
    pub height: usize,
}

// Four selectors or alphas.
pub fn nibbles(r: &mut Random) -> [u8; 2] {
    let mut four = [r.byte(), r.byte()];
    if r.once_in(3) {
        four[r.below(2)] &= *r.pick(&[0x0F, 0xF0, 0x00]);
    }
    four
}

// Bands about a picture: some end a line before it, some start at its last.
pub fn about(r: &mut Random, count: usize, entries: (usize, usize), shown: &Area) -> Vec<u8> {
    let mut out = Vec::new();
    for _ in 0..count {
        let mut first = (shown.y + r.below(shown.height + 2)).saturating_sub(1).min(4095);
        let last = (first + r.below(shown.height + 1)).min(4095);
        let n = r.within(entries.0, entries.1);
        if first == 4095 && n == 15 {
            // no end mark
            first = 4094;
        }
        header(&mut out, first, last, n);
        let mut column = (shown.x + r.below(shown.width + 2)).saturating_sub(1);
        for _ in 0..n {
            out.extend([(column / 256) as u8, column as u8]);
            out.extend(nibbles(r));
            out.extend(nibbles(r));
            column += if r.once_in(2) { 1 } else { r.within(1, shown.width + 1) };
        }
    }
    out
}

pub fn payload(r: &mut Random) -> Vec<u8> {
    let mut out = Vec::new();
    for _ in 0..r.below(5) {
        let (a, b) = (r.below(4096), r.below(4096));
        let (first, last) = if r.once_in(4) { (a, a) } else { (a.min(b), a.max(b)) };
        let n = if r.once_in(6) { 15 } else { r.below(4) };
        if first == 4095 && n == 15 {
            continue;
        }
        header(&mut out, first, last, n);
        let mut column = if r.once_in(3) { 0 } else { r.below(60000) };
        for _ in 0..n {
            out.extend([(column / 256) as u8, column as u8]);
            out.extend(r.bytes(4));
            column += if r.once_in(60) { 0 } else if r.once_in(2) { 1 } else { r.within(1, 200) };
        }
    }
    if r.once_in(2) {
        out.extend([0x0F, 0xFF, 0xFF, 0xFF]);
        if r.once_in(2) {
            let some = r.below(9);
            out.extend(r.bytes(some));
        }
    }
    out
}

pub fn damage(r: &mut Random, bytes: &mut Vec<u8>) {
    match r.below(4) {
        0 => bytes.truncate(r.below(bytes.len() + 1)),
        1 if !bytes.is_empty() => {
            let i = r.below(bytes.len());
            bytes[i] = r.byte();
        }
        2 if !bytes.is_empty() => {
            let i = r.below(bytes.len());
            bytes[i] = *r.pick(&ALPHABET);
        }
        _ => {
            let some = r.within(1, 3);
            let more = r.bytes(some);
            bytes.extend(more);
        }
    }
}

// About 32 bands, often with the end mark, and then a further header or what is no list.
fn crowded(r: &mut Random) -> Vec<u8> {
    let (count, entries) = (crowd::count(r), crowd::entries(r));
    let shown = Area { x: r.below(60000), y: r.below(4096), width: 300, height: 100 };
    let mut out = about(r, count, entries, &shown);
    match r.below(8) {
        0..3 => out.extend([0x0F, 0xFF, 0xFF, 0xFF]),
        3 => out.extend([0x0F, 0xFF, 0xFF, 0xFF, 0, 0, 0, 0]),
        4 => out.extend(*r.pick(&[&[0][..], &[0x10, 0, 0, 0], &[0, 1, 0, 0], &[0, 0, 0x10, 0, 0, 0]])),
        _ => {}
    }
    out
}

fn generate(_: &World, r: &mut Random) -> Request {
    let mut bytes = if r.once_in(12) { crowded(r) } else { payload(r) };
    if r.once_in(3) {
        damage(r, &mut bytes);
    }
    Request { bytes, n: [0; 4] }
}

// All words of an array: those of the bands, then 0.
pub fn stated(words: &[u16]) -> [u16; port::BANDS] {
    let mut all = [0; port::BANDS];
    for (to, word) in all.iter_mut().zip(words) {
        *to = *word;
    }
    all
}

// The array that is lent, with a margin behind it.
pub type Words = [u16; port::BANDS + 16];

fn compare(side: &Side, q: &Request) -> Outcome {
    let mut words: Words = [WORD; _];
    let mut count = NUMBER;
    let refusal = port::bands(&q.bytes, words.first_chunk_mut().unwrap(), &mut count);
    let mut o = Outcome { refusal, ..Default::default() };
    let mut expected: Words = [WORD; _];
    match tried(|| (side.bands)(&q.bytes)) {
        Err(words) => o.panicked = Some(words),
        Ok(answer) => {
            let number = answer.as_ref().map_or_else(|message| number_of(message), |_| 0);
            let counts = crate::counted(|| (side.counting.bands)(&q.bytes));
            o.rule = side.limit.rule(counts, number);
            match answer {
                _ if o.rule.is_some() => o.must(refusal == 34, || format!("{} bands; the port says {refusal}", counts.bands)),
                Err(message) => o.must(refusal == number, || format!("the original says {message:?}, so {number}; the port says {refusal}")),
                Ok(bands) => {
                    o.both = refusal == 0;
                    o.must(refusal == 0 && count == bands.len(), || format!("{} words; the port says {refusal} and {count}", bands.len()));
                    expected[..port::BANDS].copy_from_slice(&stated(&bands));
                }
            }
            o.met.extend(limit::met(&o, counts, number));
        }
    }
    o.must(words == expected, || "the words lent".into());
    o.must(refusal == 0 || count == NUMBER, || "the count is written on a refusal".into());
    o
}
