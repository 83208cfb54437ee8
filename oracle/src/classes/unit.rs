// Whole units: generated ones, damaged ones and real ones. n: how the map is lent (0 exactly as long as needed, 1 longer, 2 one short, 3 none).
use crate::class::*;
use crate::classes::bands::{Words, stated};
use crate::classes::{bands, crowd, field};
use crate::limit;
use crate::port;
use crate::random::Random;
use crate::side::{Decoded, Side, number_of};
use crate::times;
use crate::{CLIPPED, Counts, EXACT, LONG_FILL};
use std::cell::RefCell;

pub const CLASS: Class = Class {
    name: "units",
    fixed,
    generate,
    compare,
    refusals: &[15, 16, 17, 18, 19, 20, 21, 22, 25, 26, 34],
    met: &[CLIPPED, EXACT, LONG_FILL, times::NEITHER, times::STARTED, times::STOPPED, times::BOTH],
    rarer: &[
        &limit::ONE,
        &limit::SEVERAL,
        &limit::OVERLAP,
        &limit::NO_ENTRY,
        &limit::ENTRIES,
        &limit::WORDS,
        &limit::BEFORE,
        &limit::LATE,
        &[limit::NO_MAP],
    ],
    accepted: true,
    dear: 1,
};

fn fixed(world: &World, each: &mut dyn FnMut(Request)) {
    for unit in &world.units {
        each(Request { bytes: unit.clone(), n: [1, 0, 0, 0] });
    }
    // every short unit with a head of small words
    for length in 0..8usize {
        for l in 0..9u8 {
            for c in 0..9u8 {
                let mut bytes = vec![0, l, 0, c];
                bytes.resize(4 + length, 0);
                bytes.truncate(length);
                each(Request { bytes, n: [1, 0, 0, 0] });
            }
        }
    }
    // no bands, one, about half of the most, about the most, and about twice as many
    crowd::fixed([0, 1].into_iter().chain(14..19).chain(30..37).chain(62..68), &mut |bytes| {
        for mode in 0..4 {
            each(Request { bytes: bytes.clone(), n: [mode, 0, 0, 0] });
        }
    });
}

pub fn put(out: &mut Vec<u8>, word: usize) {
    out.extend([(word / 256) as u8, word as u8]);
}

pub fn area(out: &mut Vec<u8>, x1: usize, x2: usize, y1: usize, y2: usize) {
    out.push(0x05);
    for (a, b) in [(x1, x2), (y1, y2)] {
        out.extend([(a / 16) as u8, (a % 16 * 16 + b / 256) as u8, b as u8]);
    }
}

pub fn change(out: &mut Vec<u8>, payload: &[u8]) {
    out.push(0x07);
    put(out, payload.len() + 2);
    out.extend(payload);
}

pub fn set_word(bytes: &mut [u8], at: usize, word: usize) {
    if at + 1 < bytes.len() {
        bytes[at] = (word / 256) as u8;
        bytes[at + 1] = word as u8;
    }
}

// The delay of a block.
pub fn delay(r: &mut Random) -> usize {
    if r.once_in(4) { *r.pick(&[0, 0, 0, 1, 8, 9, 10, 65534, 65535]) } else { r.below(65536) }
}

pub fn made(r: &mut Random) -> Vec<u8> {
    let width = if r.once_in(30) { r.within(1, 720) } else { r.within(1, 40) };
    let height = if r.once_in(30) { r.within(1, 60) } else { r.within(1, 12) };
    let (x1, y1) = (r.below(4096 - width), r.below(4096 - height));
    let mut bytes = vec![0; 4];
    let (upper, lower) = (field::rows(r, width, height.div_ceil(2)), field::rows(r, width, height / 2));
    let (mut top, mut bottom);
    if r.once_in(5) {
        bottom = bytes.len();
        bytes.extend(lower);
        top = bytes.len();
        bytes.extend(upper);
    } else {
        top = bytes.len();
        bytes.extend(upper);
        bottom = bytes.len();
        bytes.extend(lower);
    }
    if r.once_in(10) {
        bottom = 0;
    }
    let some = r.below(3);
    bytes.extend(r.bytes(some));
    let control = bytes.len();
    let fault = if r.once_in(2) { 99 } else { r.below(16) };
    if fault == 0 {
        top = control + r.below(3);
    }
    if fault == 1 {
        bottom = *r.pick(&[control, control + 1, top, top + 1, 65535]);
    }
    let blocks = r.within(1, 3);
    for block in 0..blocks {
        let start = bytes.len();
        put(&mut bytes, delay(r));
        put(&mut bytes, 0);
        let mut orders: Vec<usize> = (0..8).collect();
        for i in (1..orders.len()).rev() {
            orders.swap(i, r.below(i + 1));
        }
        for order in orders {
            match order {
                0 if block == 0 || r.once_in(8) => area(&mut bytes, x1, x1 + width - 1, y1, y1 + height - 1),
                1 if block == 0 || r.once_in(8) => {
                    bytes.push(0x06);
                    put(&mut bytes, top);
                    put(&mut bytes, bottom);
                }
                2 if r.once_in(2) => bytes.extend([0x03, r.byte(), r.byte()]),
                3 if r.once_in(2) => bytes.extend([0x04, r.byte(), r.byte()]),
                4 if r.once_in(3) => bytes.push(0x00),
                5 if r.once_in(2) => bytes.push(0x01),
                6 if r.once_in(2) => bytes.push(0x02),
                7 if r.once_in(3) => {
                    let mut payload = bands::payload(r);
                    if fault == 2 {
                        bands::damage(r, &mut payload);
                    }
                    change(&mut bytes, &payload);
                    if fault == 3 {
                        let at = bytes.len() - payload.len() - 2;
                        let size = r.below(2);
                        set_word(&mut bytes, at, size);
                    }
                    if fault == 4 {
                        let at = bytes.len() - payload.len() - 2;
                        let size = payload.len() + r.within(3, 300);
                        set_word(&mut bytes, at, size);
                    }
                }
                _ => {}
            }
        }
        if fault == 5 && r.once_in(2) {
            bytes.push(r.within(0x08, 0xFE) as u8);
        }
        if fault == 6 && r.once_in(2) {
            area(&mut bytes, x1 + 1, x1, y1, y1 + r.below(2));
        }
        if fault == 7 && r.once_in(2) {
            area(&mut bytes, x1, x1, y1 + 1, y1);
        }
        if block + 1 < blocks || !r.once_in(4) {
            bytes.push(0xFF);
        }
        let next = if block + 1 < blocks { bytes.len() } else { start };
        set_word(&mut bytes, start + 2, next);
    }
    let length = bytes.len();
    set_word(&mut bytes, 0, length);
    set_word(&mut bytes, 2, control);
    match fault {
        // an offset at the end or past it
        8 | 9 => {
            for i in control..length.saturating_sub(4) {
                if bytes[i] == 0x06 && i > control + 3 {
                    let offset = length + r.below(3);
                    set_word(&mut bytes, i + 1, offset);
                }
            }
        }
        // the length word cut into the last command
        10 | 11 => {
            let cut = r.within(1, 9);
            set_word(&mut bytes, 0, length.saturating_sub(cut));
        }
        12 => {
            let cut = r.below(length);
            bytes.truncate(cut);
        }
        13 => {
            let at = if r.once_in(2) { 0 } else { 2 };
            let word = r.below(length + 8);
            set_word(&mut bytes, at, word);
        }
        14 => bytes.truncate(r.below(4)),
        15 => {
            for _ in 0..r.within(1, 4) {
                let i = r.below(bytes.len());
                bytes[i] = r.byte();
            }
        }
        _ => {}
    }
    if r.once_in(6) {
        let some = r.below(9);
        bytes.extend(r.bytes(some));
    }
    bytes
}

pub fn lending(r: &mut Random) -> [usize; 4] {
    let mode = if r.once_in(12) { r.within(2, 3) } else { r.below(2) };
    [mode, 0, 0, 0]
}

// The number that a unit with about 32 bands is refused with, of those that follow from its bytes; half of them are sound.
pub fn refused_with(r: &mut Random) -> u8 {
    if r.once_in(2) { 0 } else { *r.pick(&[17, 18, 19, 20, 21, 25, 26]) }
}

fn generate(world: &World, r: &mut Random) -> Request {
    let mut bytes = if r.once_in(20) {
        let mut unit = r.pick(&world.units).clone();
        if unit.len() > 8000 {
            unit = made(r);
        } else {
            for _ in 0..r.below(4) {
                let from = if r.once_in(2) { 0 } else { unit.len().saturating_sub(40) };
                let i = r.within(from, unit.len() - 1);
                unit[i] = r.byte();
            }
        }
        unit
    } else if r.once_in(16) {
        let number = refused_with(r);
        crowd::unit(r, number)
    } else {
        made(r)
    };
    if r.once_in(20) && !bytes.is_empty() {
        let i = r.below(bytes.len());
        bytes[i] ^= 1 << r.below(8);
    }
    Request { bytes, n: lending(r) }
}

// Lent memory that keeps its pattern between requests, so that a large map need not be filled anew.
struct Lent {
    map: Vec<u8>,
    words: Words,
}

thread_local! {
    static LENT: RefCell<Lent> = const { RefCell::new(Lent { map: Vec::new(), words: [WORD; _] }) };
}

struct Answer {
    refusal: u8,
    numbers: [usize; port::NUMBERS],
}

impl Lent {
    fn ask(&mut self, unit: &[u8], map: usize) -> Answer {
        if self.map.len() < map {
            self.map.resize(map, BYTE);
        }
        let mut numbers = [NUMBER; port::NUMBERS];
        let refusal = port::unit(unit, &mut self.map[..map], self.words.first_chunk_mut().unwrap(), &mut numbers);
        Answer { refusal, numbers }
    }

    // Whether nothing is written from these places on, of the map within what was lent.
    fn untouched(&mut self, map: std::ops::Range<usize>, words: usize) -> bool {
        let same = self.map[map].iter().all(|&b| b == BYTE) && self.words[words..].iter().all(|&w| w == WORD);
        if !same {
            self.map.fill(BYTE);
            self.words.fill(WORD);
        }
        same
    }

    // The answer must be a refusal with that number, and nothing stored.
    fn refused(&mut self, o: &mut Outcome, a: &Answer, number: u8, map: usize, why: impl FnOnce() -> String) {
        o.refusal = a.refusal;
        o.must(a.refusal == number, || format!("{}, so {number}; the port says {}", why(), a.refusal));
        o.must(a.numbers == [NUMBER; port::NUMBERS], || "the record is written on a refusal".into());
        o.must(self.untouched(0..map, 0), || "map or words are written on a refusal".into());
    }
}

pub fn by_mode(mode: usize, need: usize) -> usize {
    match mode {
        0 => need,
        1 => need + 7,
        2 => need.saturating_sub(1),
        _ => 0,
    }
}

pub fn compare(side: &Side, q: &Request) -> Outcome {
    LENT.with(|lent| compared(&mut lent.borrow_mut(), side, q))
}

fn compared(lent: &mut Lent, side: &Side, q: &Request) -> Outcome {
    let mut o = Outcome::default();
    let answer = match tried(|| (side.unit)(&q.bytes)) {
        Err(words) => {
            o.panicked = Some(words);
            o.refusal = lent.ask(&q.bytes, 64).refusal;
            lent.map.fill(BYTE);
            lent.words.fill(WORD);
            return o;
        }
        Ok(answer) => answer,
    };
    let number = answer.as_ref().map_or_else(|message| number_of(message), |_| 0);
    let counts = crate::counted(|| (side.counting.unit)(&q.bytes));
    o.rule = side.limit.rule(counts, number);
    let many = o.rule.is_some();
    match answer {
        Err(message) => {
            let late = number >= 25;
            let mut map = if q.n[0] > 1 { 0 } else { 64 };
            let mut a = lent.ask(&q.bytes, map);
            if many {
                o.met.extend((map == 0).then_some(limit::NO_MAP));
                lent.refused(&mut o, &a, 34, map, || format!("{} bands", counts.bands));
            } else if late && map == 0 {
                o.rule = Some(SHORT);
                lent.refused(&mut o, &a, 22, map, || "no map for a unit with an area".into());
            } else {
                // how much a refused unit would need, the original does not say: lend more until it is enough
                while late && a.refusal == 22 && map < 1 << 24 {
                    map = (map * 64).min(1 << 24);
                    a = lent.ask(&q.bytes, map);
                    o.rule = Some("22 is checked before 25 and 26");
                }
                lent.refused(&mut o, &a, number, map, || format!("the original says {message:?}"));
            }
        }
        Ok(d) => {
            let map = by_mode(q.n[0], d.map.len());
            let a = lent.ask(&q.bytes, map);
            if many {
                o.met.extend((map < d.map.len()).then_some(limit::NO_MAP));
                lent.refused(&mut o, &a, 34, map, || format!("{} bands", counts.bands));
            } else if map < d.map.len() {
                o.rule = Some(SHORT);
                lent.refused(&mut o, &a, 22, map, || format!("{map} bytes of {}", d.map.len()));
            } else {
                accepted(&mut o, lent, &a, &d, counts, map);
            }
        }
    }
    o.met.extend(limit::met(&o, counts, number));
    o
}

const SHORT: &str = "22: a map is lent, and too short";

fn accepted(o: &mut Outcome, lent: &mut Lent, a: &Answer, d: &Decoded, counts: Counts, map: usize) {
    o.refusal = a.refusal;
    o.both = a.refusal == 0;
    o.must(a.refusal == 0, || format!("the original accepts; the port says {}", a.refusal));
    let mut numbers = a.numbers;
    // added values, which the counting copy has
    let added = [
        (port::CODES, counts.codes, "codes"),
        (port::CLIPPED, counts.clipped, "clipped codes"),
        (port::STARTED, counts.started as usize, "for a start"),
        (port::STOPPED, counts.stopped as usize, "for a stop"),
    ];
    for (place, count, what) in added {
        o.must(numbers[place] == count, || format!("{count} {what}; the port says {}", a.numbers[place]));
        numbers[place] = 0;
    }
    o.met.extend(counts.met().chain([times::stood(counts)]).filter(|_| o.both));
    o.must(numbers == d.numbers, || format!("the record {:?}; the port says {:?}", d.numbers, a.numbers));
    o.must((d.width, d.height) == (numbers[2] + 1 - numbers[0], numbers[3] + 1 - numbers[1]), || "width and height".into());
    o.must(lent.map[..d.map.len()] == d.map, || "the map".into());
    o.must(lent.words[..port::BANDS] == stated(&d.words), || "the words".into());
    o.must(lent.untouched(d.map.len()..map, port::BANDS), || "map or words are written past what is needed".into());
    if o.refusal == 0 {
        let pixels = d.map.len().min(lent.map.len());
        lent.map[..pixels].fill(BYTE);
        lent.words.fill(WORD);
    }
}
