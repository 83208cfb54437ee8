// A cue's canvas from index text and file, in one call. The bytes: four with the text's length, two with the cue's number, two with the
// stream, the text, the file.
// n: how scratch, map and canvas are lent (0 exactly as long as needed, 1 longer, 2 one short, 3 none).
use crate::class::*;
use crate::classes::bands::{self, Area, about};
use crate::classes::idx::{ANY, Asked, Expected, LINES, SHORT_TEXTS, TIMES, asked, far, far_duration, faulty, line, short_text};
use crate::classes::packets::{above, another, in_packets};
use crate::classes::unit::{area, by_mode, change, delay, made, put, set_word};
use crate::classes::{crowd, field, positions};
use crate::empty::{self, GIVEN, NEAR, REFUSED};
use crate::limit;
use crate::port;
use crate::random::Random;
use crate::side::{Delays, Painted, Seen, Side, number_of};
use crate::stored;
use crate::times::{self, last_start, micros};
use crate::titles::titles;
use crate::walk::{ABOVE, ABSENT, PARTED, TOP_STREAM, stream_at, walk};
use crate::{CLIPPED, Counts, EXACT, LONG_FILL};
use std::cell::RefCell;

pub const CLASS: Class = Class {
    name: "canvas",
    fixed,
    generate,
    compare,
    refusals: &[1, 2, 3, 4, 5, 6, 7, 8, 9, 11, 12, 13, 14, 15, 16, 17, 18, 19, 20, 21, 22, 24, 25, 26, 32, 33, 34, 41],
    met: &[
        PARTED,
        ABSENT,
        CLIPPED,
        EXACT,
        LONG_FILL,
        GIVEN,
        REFUSED,
        NEAR,
        times::NEITHER,
        times::STARTED,
        times::STOPPED,
        times::BOTH,
        times::AFTER,
        times::AT_ONCE,
        times::BEFORE,
        times::NO_DELAY,
        times::LAST,
        times::FIRST,
        times::UNTIMED,
        times::LONG_BARE,
        times::LONG_JOINED,
    ],
    rarer: &[
        &limit::ONE,
        &limit::SEVERAL,
        &limit::OVERLAP,
        &limit::NO_ENTRY,
        &limit::ENTRIES,
        &limit::WORDS,
        &limit::BEFORE,
        &limit::LATE,
        &[limit::NO_SCRATCH, limit::NO_MAP, limit::NO_CANVAS, limit::LEAVES, limit::BARE, limit::JOINED],
        &[stored::LAST, stored::LAST_PAST, stored::UNREAD, stored::LEAST, stored::DECIMAL],
        &[stored::EARLIER, stored::ITS, stored::LATER, stored::NO_CUE, stored::NO_STREAM, stored::AFTER],
    ],
    accepted: true,
    dear: 4,
};

const HEAD: usize = 8;

pub fn request(text: &[u8], file: &[u8], cue: usize, stream: usize, n: [usize; 4]) -> Request {
    let mut bytes = (text.len() as u32).to_be_bytes().to_vec();
    bytes.extend((cue as u16).to_be_bytes());
    bytes.extend((stream as u16).to_be_bytes());
    bytes.extend(text);
    bytes.extend(file);
    Request { bytes, n }
}

// Text, file, cue and stream of a request.
pub fn parts(bytes: &[u8]) -> (&[u8], &[u8], usize, usize) {
    let mut head = [0; HEAD];
    let there = bytes.len().min(HEAD);
    head[..there].copy_from_slice(&bytes[..there]);
    let [a, b, c, d, e, f, g, h] = head;
    let rest = &bytes[there..];
    let length = (u32::from_be_bytes([a, b, c, d]) as usize).min(rest.len());
    (&rest[..length], &rest[length..], u16::from_be_bytes([e, f]) as usize, u16::from_be_bytes([g, h]) as usize)
}

// Every cue of the small titles, lent exactly, more, and each buffer one short, and for another stream and 32; every cue of a title of few,
// and of one of many each tenth. Every real unit with a text of no bytes. Positions about 2^32. Every delay, and times at the ends of their range.
// Units with 31 to 34 bands.
fn fixed(world: &World, each: &mut dyn FnMut(Request)) {
    for title in titles() {
        let (text, cues) = (title.text.as_bytes(), title.positions.len());
        let small = title.file.len() < 1 << 16;
        for cue in (0..=cues).step_by(if cues > 100 { 10 } else { 1 }) {
            let stream = title.positions.get(cue).map_or(0, |&p| stream_at(&title.file, p));
            each(request(text, &title.file, cue, stream, [1; 4]));
            for short in 0..if small { 3 } else { 0 } {
                let mut n = [0; 4];
                each(request(text, &title.file, cue, stream, n));
                n[short] = 2;
                each(request(text, &title.file, cue, stream, n));
            }
            if small {
                each(request(text, &title.file, cue, (stream + 1) % 32, [1; 4]));
                each(request(text, &title.file, cue, 32, [1; 4]));
            }
        }
    }
    for file in &world.files {
        each(request(b"", file, 0, stream_at(file, 0), [1; 4]));
    }
    // the card, with every colour's selector and alpha, also in greys
    let card = [0u8, 0x21, 0, 9, 0, 1, 0x60, 0, 0x30, 0, 0, 0, 9, 3, 1, 0x32, 4, 0x0F, 0xFF, 5, 0, 0, 1, 0, 0, 1, 6, 0, 4, 0, 6, 1, 0xFF];
    let text = b"palette: 010203,111213,212223,313233,414243,515253,616263,717273,818283,919293,a1a2a3,b1b2b3,c1c2c3,d1d2d3,e1e2e3,f1f2f3\ntimestamp: 00:00:01:000, filepos: 0";
    for b in 0..=255u8 {
        for at in [14, 15, 17, 18] {
            let mut unit = card;
            unit[at] = b;
            each(request(text, &unit, 0, b as usize % 32, [0; 4]));
            each(request(b"", &unit, 0, b as usize % 32, [0; 4]));
        }
    }
    // no bytes of text, or nearly none: without a unit, with a short or a bad one, with the card bare and in packets
    let mut in_packet = vec![0, 0, 1, 0xBD, 0, card.len() as u8 + 4, 0x80, 0, 0, 0x20];
    in_packet.extend(card);
    let files: [&[u8]; 8] = [b"", b"\0", b"\0\0\0", b"\0\0\x01\xB9", b"\0\x04\0\x04", &card[..32], &card, &in_packet];
    for file in files {
        for (cue, stream) in [0, 1, 65535].into_iter().flat_map(|cue| [0, 1, 31, 32].map(|stream| (cue, stream))) {
            for text in SHORT_TEXTS {
                each(request(text, file, cue, stream, [1; 4]));
            }
            each(request(b"", file, cue, stream, [0; 4]));
            for (buffer, mode) in (0..3).flat_map(|buffer| [2, 3].map(|mode| (buffer, mode))) {
                let mut n = [0; 4];
                n[buffer] = mode;
                each(request(b"", file, cue, stream, n));
            }
        }
    }
    positions::fixed(&mut |text| {
        for (cue, stream) in (0..4).flat_map(|cue| [0, 32].map(|stream| (cue, stream))) {
            each(request(text.as_bytes(), &card, cue, stream, [1; 4]));
        }
    });
    fixed_times(each);
    // with a start from which every time stays, and with one from which each leaves whose delay is not 0
    crowd::fixed(31..35, &mut |unit| {
        for start in [1000, MOST] {
            lent_all_ways(&at(start), &unit, each);
        }
    });
}

// Four pixels with a band, the first field at that place, and blocks of one command each, with their delays.
fn timed(top: usize, blocks: &[(usize, u8)]) -> Vec<u8> {
    let mut bytes = vec![0, 0, 0, 9, 0, 1, 0x60, 0, 0x30];
    for (i, &(delay, command)) in blocks.iter().enumerate() {
        let start = bytes.len();
        put(&mut bytes, delay);
        put(&mut bytes, start);
        if i == 0 {
            bytes.extend([0x03, 0x01, 0x32, 0x04, 0x0F, 0xFF]);
            area(&mut bytes, 0, 1, 0, 1);
            bytes.push(0x06);
            put(&mut bytes, top);
            put(&mut bytes, 6);
            change(&mut bytes, &[0, 0, 0x10, 1, 0, 1, 0x12, 0x34, 0xFE, 0xDC]);
        }
        bytes.extend([command, 0xFF]);
        if i + 1 < blocks.len() {
            let next = bytes.len();
            set_word(&mut bytes, start + 2, next);
        }
    }
    let length = bytes.len();
    set_word(&mut bytes, 0, length);
    bytes
}

fn at(milliseconds: i64) -> Vec<u8> {
    format!("timestamp: 0:0:0:{milliseconds}, filepos: 0").into_bytes()
}

// The greatest start of a text in milliseconds; the least is as far below 0.
const MOST: i64 = i64::MAX / 1000;

// Places of the first field: as it is, where no byte of it is left (26), and past the unit (25).
const FIELD: usize = 4;
const NO_FIELD: usize = 9;
const PAST: usize = 65535;

fn fixed_times(each: &mut dyn FnMut(Request)) {
    // every delay of a start and of a stop; the last start from which its time stays, and the next, from which it leaves
    for d in 0..=65535 {
        each(request(&at(1000), &timed(FIELD, &[(d, 1), (65535 - d, 2)]), 0, 0, [0; 4]));
        let unit = if d % 2 == 0 { timed(FIELD, &[(d, 1)]) } else { timed(FIELD, &[(0, 1), (d, 2)]) };
        for start in last_start(d)..=(last_start(d) + 1).min(MOST) {
            each(request(&at(start), &unit, 0, 0, [0; 4]));
        }
    }
    for start in [-MOST, 1 - MOST, -1_000_000, -745_643, -745_642, -12, -11, -1, 0, 1] {
        for d in [0, 1, 8, 9, 10, 65534, 65535] {
            let chains = [&[(d, 0)][..], &[(d, 1)], &[(d, 2)], &[(d, 1), (10, 2)], &[(10, 2), (d, 1)], &[(10, 0), (d, 2)], &[(d, 0xFF)]];
            for blocks in chains {
                each(request(&at(start), &timed(FIELD, blocks), 0, 0, [1; 4]));
            }
        }
    }
    // of all times 2^63 - 8 is the greatest that stays and 2^63 + 14 the least that leaves; the least and the greatest delay that lead there
    for bound in [(1i128 << 63) - 8, (1 << 63) + 14] {
        let delays: Vec<usize> = (0..=65535).filter(|&d| (bound - micros(d)) % 1000 == 0).collect();
        for d in [delays[0], delays[delays.len() - 1]] {
            let text = at(((bound - micros(d)) / 1000) as i64);
            // the time is the show time; the hide time; both; and none: of a stop alone, of a second start, of a stop before another
            let show = [&[(d, 0)][..], &[(d, 1)], &[(d, 1), (0, 2)]];
            let hide = [&[(0, 1), (d, 2)][..], &[(d, 2), (0, 0)], &[(d, 1), (d, 2)]];
            let none = [&[(d, 2)][..], &[(0, 1), (d, 1)], &[(0, 1), (d, 2), (0, 2)]];
            for blocks in [show, hide, none].concat() {
                for top in [FIELD, NO_FIELD, PAST] {
                    lent_all_ways(&text, &timed(top, blocks), each);
                }
            }
        }
    }
}

// A unit bare and in a packet, with buffers that are as long as needed, longer, one short and none.
fn lent_all_ways(text: &[u8], unit: &[u8], each: &mut dyn FnMut(Request)) {
    let mut packet = vec![0, 0, 1, 0xBD];
    put(&mut packet, unit.len() + 4);
    packet.extend([0x80, 0, 0, 0x20]);
    packet.extend(unit);
    for file in [unit, &packet] {
        each(request(text, file, 0, 0, [0; 4]));
        each(request(text, file, 0, 0, [1; 4]));
        for (buffer, mode) in (0..3).flat_map(|buffer| [2, 3].map(|mode| (buffer, mode))) {
            let mut n = [0; 4];
            n[buffer] = mode;
            each(request(text, file, 0, 0, n));
        }
    }
}

// What is wrong with a request. Half of them are sound.
#[derive(Clone, Copy, PartialEq)]
enum Fault {
    None,
    Under4,
    WrongC,
    Parameters,
    SmallS,
    NoBands,
    Unknown,
    Inverted,
    Offset,
    RanOut,
    HighByte,
    Line(usize),
    Greater,
    NoCue,
    Past,
    NoUnit,
    Scratch,
    Pixels,
    Canvas,
    FileDamaged,
    TextDamaged,
    FarApart,
    Cut,
    OtherPlace,
}

fn fault(r: &mut Random) -> Fault {
    use Fault::*;
    const FAULTS: [Fault; 21] = [
        Under4, WrongC, Parameters, SmallS, NoBands, Unknown, Inverted, Offset, RanOut, HighByte, NoCue, Past, NoUnit, Scratch, Pixels, Canvas, FileDamaged, TextDamaged, FarApart, Cut, OtherPlace,
    ];
    match r.below(2 * (LINES.len() + FAULTS.len())) {
        i if i < LINES.len() => Line(i),
        i if i < LINES.len() + FAULTS.len() => FAULTS[i - LINES.len()],
        _ => None,
    }
}

// What may be wrong with a request whose unit has about 32 bands. Half of them are sound.
fn crowd_fault(r: &mut Random) -> Fault {
    use Fault::*;
    const FAULTS: [Fault; 10] = [Parameters, SmallS, NoBands, Unknown, Inverted, Offset, RanOut, Scratch, Pixels, Canvas];
    if r.once_in(2) { None } else { *r.pick(&FAULTS) }
}

// A unit with about 32 bands, and what is wrong with it.
fn crowded(r: &mut Random, fault: Fault) -> Vec<u8> {
    let number = match fault {
        Fault::Parameters => 17,
        Fault::SmallS => 18,
        Fault::NoBands => 19,
        Fault::Unknown => 20,
        Fault::Inverted => 21,
        Fault::Offset => 25,
        Fault::RanOut => 26,
        _ => 0,
    };
    crowd::unit(r, number)
}

// A unit with bands about its picture, or none.
fn banded(r: &mut Random, fault: Fault) -> Vec<u8> {
    let (width, height) = (r.within(1, 24), r.within(1, 10));
    let x1 = *r.pick(&[0, 1, 7, 300, 4096 - width]);
    let y1 = *r.pick(&[0, 1, 9, 400, 4096 - height]);
    let mut bytes = vec![0; 4];
    bytes.extend(field::rows(r, width, height.div_ceil(2)));
    let bottom = bytes.len();
    bytes.extend(field::rows(r, width, height / 2));
    let control = bytes.len();
    let (mut offset, mut before) = (0, None);
    // starts and stops that its blocks may have
    let commands: &[u8] = *r.pick(&[&[][..], &[0, 1], &[0, 1], &[2], &[2], &[0, 1, 2], &[0, 1, 2], &[0, 1, 2]]);
    for block in 0..r.within(1, 3) {
        let start = bytes.len();
        if let Some(before) = before.replace(start) {
            set_word(&mut bytes, before + 2, start);
        }
        put(&mut bytes, delay(r));
        // the last block names itself
        put(&mut bytes, start);
        if block == 0 || r.once_in(4) {
            bytes.push(0x03);
            bytes.extend(bands::nibbles(r));
            bytes.push(0x04);
            bytes.extend(bands::nibbles(r));
        }
        if block == 0 {
            area(&mut bytes, x1, x1 + width - 1, y1, y1 + height - 1);
            offset = bytes.len() + 1;
            bytes.push(0x06);
            put(&mut bytes, 4);
            put(&mut bytes, bottom);
        }
        if r.once_in(2) || matches!(fault, Fault::NoBands | Fault::SmallS) {
            let count = r.within(1, 4);
            let mut payload = about(r, count, (0, 4), &Area { x: x1, y: y1, width, height });
            if r.once_in(2) {
                payload.extend([0x0F, 0xFF, 0xFF, 0xFF]);
            }
            if fault == Fault::NoBands {
                bands::damage(r, &mut payload);
            }
            change(&mut bytes, &payload);
            if fault == Fault::SmallS {
                let at = bytes.len() - payload.len() - 2;
                let size = r.below(2);
                set_word(&mut bytes, at, size);
            }
        }
        for _ in 0..if commands.is_empty() { 0 } else { r.within(1, 2) } {
            bytes.push(*r.pick(commands));
        }
        match fault {
            Fault::Unknown => bytes.push(r.within(0x08, 0xFE) as u8),
            Fault::Inverted if r.once_in(2) => area(&mut bytes, x1 + 1, x1, y1, y1),
            Fault::Inverted => area(&mut bytes, x1, x1, y1 + 1, y1),
            Fault::Parameters => {
                let (command, most) = *r.pick(&[(3, 2), (4, 2), (5, 6), (6, 4), (7, 2)]);
                bytes.push(command);
                let some = r.below(most);
                bytes.extend(vec![0; some]);
                break;
            }
            _ => {}
        }
        bytes.push(0xFF);
    }
    let length = bytes.len();
    set_word(&mut bytes, 0, length);
    set_word(&mut bytes, 2, control);
    match fault {
        Fault::WrongC => {
            let word = if r.once_in(2) { r.below(4) } else { length + r.within(1, 9) };
            set_word(&mut bytes, 2, word);
        }
        Fault::Offset => set_word(&mut bytes, offset, length + r.below(3)),
        Fault::RanOut => set_word(&mut bytes, offset, control - r.below(2)),
        Fault::Under4 => {
            bytes.truncate(r.within(2, 3));
            let t = if r.once_in(3) { r.below(2) } else { bytes.len() };
            set_word(&mut bytes, 0, t);
        }
        _ => {}
    }
    bytes
}

fn text(r: &mut Random, fault: Fault, starts: &[String], places: &[usize]) -> Vec<u8> {
    let mut lines: Vec<String> = Vec::new();
    if !r.once_in(6) {
        lines.push(format!("size: {}x{}", r.below(2000), r.below(2000)));
    }
    if !r.once_in(6) {
        let tokens: Vec<String> = (0..if r.once_in(4) { r.below(20) } else { 16 }).map(|_| format!("{:06x}", r.below(1 << 24))).collect();
        lines.push(format!("palette: {}", tokens.join(*r.pick(&[",", ", ", " "]))));
    }
    for (start, position) in starts.iter().zip(places) {
        lines.push(match r.below(9) {
            0 => format!("timestamp:{start},filepos:0x{position:x}"),
            1 => format!("timestamp: filepos: {position:X} , {start}"),
            // the last position counts
            2 => format!("timestamp: filepos: {}, {start}, filepos: {position:09x}", positions::greater(r)),
            _ => format!("timestamp: {start}, filepos: {position:09x}"),
        });
    }
    if r.once_in(10) {
        let mut odd = String::new();
        line(r, &mut odd);
        lines.insert(r.below(lines.len() + 1), odd);
    }
    if let Fault::Line(i) = fault {
        lines.insert(r.below(lines.len() + 1), faulty(r, i));
    }
    if fault == Fault::Greater {
        for _ in 0..r.within(1, 2) {
            let position = positions::greater(r);
            lines.insert(r.below(lines.len() + 1), positions::line(r, &position));
        }
        if r.once_in(2) {
            let i = r.below(LINES.len());
            lines.insert(r.below(lines.len() + 1), faulty(r, i));
        }
    }
    let mut bytes = lines.join(*r.pick(&["\n", "\n", "\r\n", "\n# a remark\n\n"])).into_bytes();
    if fault == Fault::HighByte {
        let i = r.below(bytes.len());
        bytes[i] = 0x80 | r.byte();
    }
    if fault == Fault::TextDamaged {
        for _ in 0..r.within(1, 3) {
            let i = r.below(bytes.len());
            bytes[i] = if r.once_in(4) { r.byte() & 0x7F } else { *r.pick(b"0 x:,+-\nfF#\r9") };
        }
    }
    bytes
}

// A start in milliseconds as a text has it.
fn written(r: &mut Random, start: i64) -> String {
    let (hours, minutes, seconds, rest) = (start / 3_600_000, start / 60_000 % 60, start / 1000 % 60, start % 1000);
    match r.below(4) {
        0 => format!("0:0:0:{start}"),
        1 => format!("0:0:{}:{rest}", start / 1000),
        _ => format!("{hours:02}:{minutes:02}:{seconds:02}:{rest:03}"),
    }
}

// A start in milliseconds near the end of the range: where a delay of the unit just leaves it or just stays, or within the longest delay.
fn late(r: &mut Random, unit: &[u8]) -> i64 {
    let decoded = tried(|| (crate::original::adapter::SIDE.unit)(unit)).ok().and_then(Result::ok);
    let delays = decoded.map_or([0; 2], |d| [d.numbers[port::START], d.numbers[port::STOP]]);
    let start = match r.below(3) {
        2 => MOST - r.below(750_000) as i64,
        i => last_start(delays[i]) + r.below(4) as i64 - 1,
    };
    start.min(MOST)
}

fn generate(world: &World, r: &mut Random) -> Request {
    // whether the unit has about 32 bands
    let crowd = r.once_in(3);
    let fault = match crowd {
        true => crowd_fault(r),
        false if r.once_in(14) => Fault::Greater,
        false => fault(r),
    };
    // whether its start is near the end of the range (1), or near the other end (-1)
    let end = *r.pick(&[0, 0, 0, 0, 0, 1, 1, 1, -1]);
    // the cue of a text of no bytes is at the front of the file
    let short = r.once_in(8).then(|| short_text(r));
    let cues = if short.is_some() { 1 } else { r.within(1, 4) };
    let mut cue = r.below(cues);
    let mut stream = r.below(TOP_STREAM + 1);
    let second = another(r, stream);
    let some = if short.is_some() { 0 } else { r.below(9) };
    let mut file = r.bytes(some);
    let (mut starts, mut positions, mut time) = (Vec::new(), Vec::new(), 0);
    for i in 0..cues {
        let wrong = if i == cue { fault } else { Fault::None };
        let mut unit = match r.below(30) {
            _ if crowd && i == cue => crowded(r, fault),
            0 if wrong == Fault::None => r.pick(&world.units).clone(),
            1..8 if wrong == Fault::None => made(r),
            _ => banded(r, wrong),
        };
        if unit.len() > 6000 {
            unit = banded(r, wrong);
        }
        positions.push(file.len());
        if r.once_in(2) && !matches!(wrong, Fault::Scratch | Fault::Under4) {
            file.extend(&unit);
        } else if r.once_in(2) {
            in_packets(r, &[(stream, &unit)], &mut file);
        } else {
            let beside = banded(r, Fault::None);
            in_packets(r, &[(stream, &unit), (second, &beside)], &mut file);
        }
        let some = r.below(5);
        file.extend(r.bytes(some));
        time += if r.once_in(10) { 0 } else { r.below(10_000_000) as i64 };
        let start = match end {
            1 if i == cue || r.once_in(2) => late(r, &unit),
            // so are those of the other cues, so that no duration leaves the range
            -1 => r.below(750_000) as i64 - MOST,
            _ => time,
        };
        starts.push(if fault == Fault::FarApart && r.once_in(2) { r.pick(&TIMES).to_string() } else { written(r, start) });
    }
    if r.once_in(10) {
        let (i, j) = (r.below(cues), r.below(cues));
        starts.swap(i, j);
    }
    let mut n = [r.below(2), r.below(2), r.below(2), 0];
    let position = positions[cue];
    match fault {
        Fault::NoCue => cue = *r.pick(&[cues, cues + 1, 65535]),
        Fault::Greater if r.once_in(6) => cue = *r.pick(&[cues + 2, 65535]),
        Fault::Past if short.is_some() => file.clear(),
        Fault::Past => positions[cue] = file.len() + r.below(3),
        Fault::NoUnit => match r.below(3) {
            0 => file[position..].fill(0),
            1 => file.truncate(position + 1 + r.below(3)),
            _ => {
                let end = file.len().min(position + 4);
                file[position..end].copy_from_slice(&[0, 0, 1, 0xB9][..end - position]);
            }
        },
        Fault::Scratch => n[0] = r.within(2, 3),
        Fault::Pixels => n[1] = r.within(2, 3),
        Fault::Canvas => n[2] = r.within(2, 3),
        Fault::FileDamaged => {
            for _ in 0..r.within(1, 4) {
                let i = r.within(position, file.len() - 1);
                file[i] = if r.once_in(2) { r.byte() } else { *r.pick(&[0x00, 0x01, 0xB9, 0xBA, 0xBD, 0x20, 0x80, 0xFF]) };
            }
        }
        Fault::Cut => file.truncate(r.within(position, file.len())),
        Fault::OtherPlace => positions[cue] = r.below(file.len()),
        _ => {}
    }
    if r.once_in(24) {
        // the greatest position that is stored, of this cue or of another
        positions[r.below(cues)] = u32::MAX as usize;
    }
    match r.below(50) {
        0..3 => stream = second,
        3 | 4 => stream = another(r, stream),
        5 | 6 => stream = above(r, stream).min(65535),
        7..15 if fault == Fault::Greater => stream = above(r, stream).min(65535),
        _ => {}
    }
    let text = short.unwrap_or_else(|| text(r, fault, &starts, &positions));
    request(&text, &file, cue, stream, n)
}

// Lent memory that keeps its pattern between requests, with a margin behind what is lent.
#[derive(Default)]
struct Lent {
    scratch: Vec<u8>,
    pixels: Vec<u8>,
    canvas: Vec<u8>,
}

const MARGIN: usize = 16;

thread_local! {
    static LENT: RefCell<Lent> = RefCell::new(Lent::default());
}

struct Answer {
    refusal: u8,
    times: [i64; port::TIMES],
    numbers: [u64; port::SHOWN_NUMBERS],
}

// What the fronts of the buffers must hold.
#[derive(Default)]
struct Fronts<'a> {
    scratch: &'a [u8],
    pixels: &'a [u8],
    canvas: &'a [u8],
}

// Whether a buffer has this front, and its pattern from there on; the pattern is put back.
fn holds(lent: &mut [u8], room: usize, front: &[u8]) -> bool {
    let same = front.len() <= room && lent[..front.len()] == *front && lent[front.len()..room + MARGIN].iter().all(|&b| b == BYTE);
    if same { lent[..front.len()].fill(BYTE) } else { lent.fill(BYTE) }
    same
}

impl Lent {
    fn ask(&mut self, q: &Request, rooms: [usize; 3]) -> Answer {
        let (text, file, cue, stream) = parts(&q.bytes);
        let [a, b, c] = rooms;
        for (buffer, room) in [(&mut self.scratch, a), (&mut self.pixels, b), (&mut self.canvas, c)] {
            if buffer.len() < room + MARGIN {
                buffer.resize(room + MARGIN, BYTE);
            }
        }
        let (mut times, mut numbers) = ([START; port::TIMES], [NUMBER as u64; port::SHOWN_NUMBERS]);
        let lent = port::Lent { scratch: &mut self.scratch[..a], pixels: &mut self.pixels[..b], canvas: &mut self.canvas[..c] };
        let refusal = port::decode_cue(text, file, cue, stream, lent, &mut times, &mut numbers);
        Answer { refusal, times, numbers }
    }

    // Notes where a buffer does not have its front, or is written past it.
    fn left(&mut self, o: &mut Outcome, rooms: [usize; 3], fronts: Fronts) {
        let same = [
            holds(&mut self.scratch, rooms[0], fronts.scratch),
            holds(&mut self.pixels, rooms[1], fronts.pixels),
            holds(&mut self.canvas, rooms[2], fronts.canvas),
        ];
        for (same, name) in same.into_iter().zip(["scratch", "the map", "the canvas"]) {
            o.must(same, || format!("{name}: other bytes than asked for, or written past them"));
        }
    }

    // The answer must be a refusal with that number, and nothing stored but a joined unit.
    fn refused(&mut self, o: &mut Outcome, a: &Answer, number: u8, rooms: [usize; 3], scratch: &[u8]) {
        o.refusal = a.refusal;
        o.must(a.refusal == number, || format!("{number} is asked for; the port says {}", a.refusal));
        o.must(a.times == [START; port::TIMES] && a.numbers == [NUMBER as u64; port::SHOWN_NUMBERS], || "times or numbers are written on a refusal".into());
        self.left(o, rooms, Fronts { scratch, ..Default::default() });
    }
}

fn compare(side: &Side, q: &Request) -> Outcome {
    let (text, _, cue, stream) = parts(&q.bytes);
    let Asked { expected, panicked, said } = asked(side, text, ANY);
    let mut o = LENT.with(|lent| compared(&mut lent.borrow_mut(), side, q, expected, panicked));
    o.met.extend(empty::met(&o, text));
    o.met.extend(stored::met(&o, text, &said, Some(cue)));
    o.met.extend((o.rule == Some(stored::GREATER) && stream > TOP_STREAM).then_some(stored::NO_STREAM));
    o
}

const SHORT: [(&str, u8); 2] = [("22: a map is lent, and too short", 22), ("24: a canvas is lent, and too short", 24)];
const BEFORE: &str = "22 and 24 are checked before 25 and 26";

fn compared(lent: &mut Lent, side: &Side, q: &Request, expected: Expected, panicked: Option<String>) -> Outcome {
    let mut o = Outcome::default();
    let (text, file, cue, stream) = parts(&q.bytes);
    // as much as a refusal before the unit may meet
    let some = [64, 64, 256];
    (o.panicked, o.empty) = (panicked, side.empty.rule(text));
    let mut index = match expected {
        Expected::Refused(number, rule) => {
            o.rule = rule;
            let a = lent.ask(q, some);
            lent.refused(&mut o, &a, number, some, &[]);
            return o;
        }
        Expected::Given(index) => index,
    };
    if stream > TOP_STREAM {
        o.rule = Some(ABOVE);
        let a = lent.ask(q, some);
        lent.refused(&mut o, &a, 32, some, &[]);
        return o;
    }
    if cue >= index.cues.len() {
        o.rule = Some("11: a cue by its number is added");
        let a = lent.ask(q, some);
        lent.refused(&mut o, &a, 11, some, &[]);
        return o;
    }
    if o.empty.is_some() {
        // the original's decoder is made without a palette, and then has greys of its own
        index.palette.clear();
    }
    let walk = walk(file, index.cues[cue].1 as usize, stream);
    let file = &walk.copy(file)[..];
    o.copied = walk.rule();
    let mut lasts = None;
    let seen = tried(|| (side.seen)(&index, file, cue, false)).or_else(|words| {
        // the difference of two starts leaves signed 64 bits, of these or of others in the text: without the others there is none
        o.rule = far(&words);
        o.panicked = Some(words);
        lasts = far_duration(index.cues[cue].0, index.cues.get(cue + 1).map(|next| next.0));
        tried(|| (side.seen)(&index, file, cue, true))
    });
    match seen {
        Err(words) => {
            o.panicked = Some(words);
            o.rule = None;
            let a = lent.ask(q, some);
            o.refusal = a.refusal;
            *lent = Lent::default();
        }
        Ok(Seen::Skipped) => {
            o.rule = Some("12: the original leaves the cue out");
            let a = lent.ask(q, some);
            lent.refused(&mut o, &a, 12, some, &[]);
            o.met.extend((index.cues[cue].1 == u32::MAX as u64).then_some(stored::LAST_PAST));
        }
        Ok(Seen::None { handed_on, refused }) => {
            o.rule = Some("13: the original hands on the rest of the file, and its decoder refuses that");
            o.must(handed_on && refused, || "no unit, and the original does not refuse the rest of the file".into());
            let a = lent.ask(q, some);
            lent.refused(&mut o, &a, 13, some, &[]);
            o.met.extend(o.copied.map(|_| ABSENT));
        }
        Ok(Seen::Unit { unit, joined, same, shows }) => {
            o.must(same, || "the original's packet has another unit than it finds".into());
            let scratch = if joined { by_mode(q.n[0], unit.len()) } else { q.n[0] };
            let number = shows.as_ref().map_or_else(|message| number_of(message), |_| 0);
            let counts = crate::counted(|| (side.counting.unit)(&unit));
            let many = side.limit.rule(counts, number);
            if joined && scratch < unit.len() {
                o.rule = Some("14: scratch is lent, and too short");
                let rooms = [scratch, 64, 256];
                let a = lent.ask(q, rooms);
                lent.refused(&mut o, &a, 14, rooms, &[]);
                o.met.extend(many.map(|_| limit::NO_SCRATCH));
                return o;
            }
            let stored = if joined { &unit[..] } else { &[] };
            match shows {
                shows if many.is_some() => {
                    // a panic that no rule covers stays a difference
                    let covered = o.panicked.is_none() || o.rule.is_some();
                    o.must(covered, || "the original panicked, and has too many bands".into());
                    o.rule = many;
                    crowded_out(&mut o, lent, side, q, shows.as_deref().ok(), scratch, stored, counts);
                }
                Err(_) => declined(&mut o, lent, q, number, scratch, stored),
                Ok(mut painted) => {
                    if o.panicked.is_some() {
                        painted.duration = lasts;
                    }
                    found(&mut o, lent, side, q, &painted, scratch, stored, counts);
                    o.met.extend((o.both && walk.parted).then_some(PARTED));
                }
            }
            o.met.extend(limit::met(&o, counts, number));
        }
    }
    o
}

// How much of each buffer is lent for the fixed list: what the request says of what the original needs, and enough where it refuses.
pub fn rooms(side: &Side, q: &Request) -> [usize; 3] {
    let some = [64, 1024, 4096];
    let (text, file, cue, stream) = parts(&q.bytes);
    let Expected::Given(index) = asked(side, text, ANY).expected else { return some };
    if stream > TOP_STREAM || cue >= index.cues.len() {
        return some;
    }
    let file = &walk(file, index.cues[cue].1 as usize, stream).copy(file)[..];
    let Ok(Seen::Unit { unit, joined, shows, .. }) = tried(|| (side.seen)(&index, file, cue, true)) else { return some };
    let scratch = if joined { by_mode(q.n[0], unit.len()) } else { q.n[0] };
    match shows {
        Ok(p) => [scratch, by_mode(q.n[1], p.decoded.map.len()), by_mode(q.n[2], p.canvas.len())],
        Err(_) => [scratch, if q.n[1] > 1 { 0 } else { some[1] }, some[2]],
    }
}

// A unit that the original refuses. How much one with 25 or 26 would need, it does not say: more is lent until that is enough.
fn declined(o: &mut Outcome, lent: &mut Lent, q: &Request, number: u8, scratch: usize, stored: &[u8]) {
    let late = number >= 25;
    let mut rooms = [scratch, 64, 256];
    if late && q.n[1] > 1 {
        // every picture has a pixel
        rooms[1] = 0;
        o.rule = Some(SHORT[0].0);
        let a = lent.ask(q, rooms);
        return lent.refused(o, &a, 22, rooms, stored);
    }
    let mut a = lent.ask(q, rooms);
    while late && matches!(a.refusal, 22 | 24) && rooms[2] < 1 << 26 {
        o.rule = Some(BEFORE);
        rooms[if a.refusal == 22 { 1 } else { 2 }] *= 16;
        // what a shorter buffer was refused with left all as it was, but for scratch
        a = lent.ask(q, rooms);
    }
    lent.refused(o, &a, number, rooms, stored);
}

// A unit with too many bands, which the original paints or says 25 or 26 of: 34 is asked for before all that a short map, a short canvas or a
// time that leaves would be refused with.
fn crowded_out(o: &mut Outcome, lent: &mut Lent, side: &Side, q: &Request, p: Option<&Painted>, scratch: usize, stored: &[u8], counts: Counts) {
    let needs = p.map_or([64, 256], |p| [p.decoded.map.len(), p.canvas.len()]);
    let rooms = [scratch, by_mode(q.n[1], needs[0]), by_mode(q.n[2], needs[1])];
    let a = lent.ask(q, rooms);
    lent.refused(o, &a, 34, rooms, stored);
    let cue = p.and_then(|p| p.start.map(|start| Delays::of(start, &p.decoded, counts)));
    let mut meets = |holds: bool, what| o.met.extend(holds.then_some(what));
    meets(rooms[1] < needs[0], limit::NO_MAP);
    meets(rooms[2] < needs[1], limit::NO_CANVAS);
    meets(cue.is_some_and(|cue| side.times.rule(cue).is_some()), limit::LEAVES);
    meets(stored.is_empty(), limit::BARE);
    meets(!stored.is_empty(), limit::JOINED);
}

// A unit that the original paints.
fn found(o: &mut Outcome, lent: &mut Lent, side: &Side, q: &Request, p: &Painted, scratch: usize, stored: &[u8], counts: Counts) {
    let needs = [p.decoded.map.len(), p.canvas.len()];
    let rooms = [scratch, by_mode(q.n[1], needs[0]), by_mode(q.n[2], needs[1])];
    let a = lent.ask(q, rooms);
    o.refusal = a.refusal;
    if let Some(short) = (0..2).find(|&i| rooms[i + 1] < needs[i]) {
        o.rule = Some(SHORT[short].0);
        return lent.refused(o, &a, SHORT[short].1, rooms, stored);
    }
    let start = p.start.expect("a start");
    o.must(p.time == p.start, || "the original's frame has another time than its packet".into());
    let cue = Delays::of(start, &p.decoded, counts);
    o.long = side.times.rule(cue);
    o.both = a.refusal == 0 && o.panicked.is_none() && o.empty.is_none();
    o.met.extend(times::met(o, cue, !stored.is_empty()));
    if o.long.is_some() {
        return lent.refused(o, &a, 33, rooms, stored);
    }
    o.must(a.refusal == 0, || format!("the original accepts; the port says {}", a.refusal));
    let [show, hide] = side.times.of(cue);
    let asked = [start as i128, show.unwrap_or(0), hide.unwrap_or(0)];
    o.must(a.times.map(i128::from) == asked || a.refusal != 0, || format!("the times {asked:?}; the port says {:?}", a.times));
    let of = |place: usize| p.decoded.numbers[place] as u64;
    let asked = [
        p.duration.is_some() as u64,
        p.duration.unwrap_or(0) as u64,
        of(port::START),
        of(port::STOP),
        of(0),
        of(1),
        p.stride as u64 / 4,
        (p.canvas.len() / p.stride) as u64,
        counts.codes as u64,
        counts.clipped as u64,
        counts.started as u64,
        counts.stopped as u64,
        hide.is_some() as u64,
    ];
    o.must(a.numbers == asked || a.refusal != 0, || format!("the numbers {asked:?}; the port says {:?}", a.numbers));
    o.met.extend(counts.met().chain([times::stood(counts)]).filter(|_| o.both));
    lent.left(o, rooms, Fronts { scratch: stored, pixels: &p.decoded.map, canvas: &p.canvas });
}
