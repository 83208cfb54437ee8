// Index texts, whole (`CLASS`; n: how many starts and how many positions the lent buffers hold) and one cue of them (`CUE`; n: the cue).
use crate::class::*;
use crate::classes::positions;
use crate::empty::{self, BLANKS, GIVEN, NEAR, REFUSED};
use crate::port;
use crate::random::Random;
use crate::side::{Index, Line, Said, Side};
use crate::stored::{self, GREATER};

pub const CLASS: Class = Class {
    name: "idx",
    fixed,
    generate,
    compare,
    refusals: &[1, 2, 3, 4, 5, 6, 7, 8, 9, 10, 41],
    met: &[GIVEN, REFUSED, NEAR],
    rarer: &[
        &[stored::LAST, stored::UNREAD, stored::LEAST, stored::MOST, stored::DECIMAL, stored::BYTE],
        &[stored::NO_ROOM, stored::AFTER, stored::FULL_AFTER, stored::FULL],
        &stored::FAULTY,
    ],
    accepted: true,
    dear: 1,
};
pub const CUE: Class = Class {
    name: "cue",
    fixed: fixed_cues,
    generate: generate_cue,
    compare: compare_cue,
    refusals: &[1, 2, 3, 4, 5, 6, 7, 8, 9, 11, 41],
    met: &[GIVEN, REFUSED, NEAR],
    rarer: &[
        &[stored::LAST, stored::UNREAD, stored::LEAST, stored::MOST, stored::DECIMAL, stored::BYTE],
        &[stored::EARLIER, stored::ITS, stored::LATER, stored::NO_CUE, stored::AFTER],
        &stored::FAULTY,
    ],
    accepted: true,
    dear: 1,
};

// No bytes, and texts near that which have no cue.
pub const SHORT_TEXTS: [&[u8]; 8] = [b"", b" ", b"\n", b"#", b"\0", b"\r\n", b"  \t", b"\n \n\x0b\x0c"];

fn each_word(alphabet: &[&str], longest: u32, f: &mut dyn FnMut(&str)) {
    for length in 0..=longest {
        for i in 0..alphabet.len().pow(length) {
            let mut rest = i;
            let mut word = String::new();
            for _ in 0..length {
                word.push_str(alphabet[rest % alphabet.len()]);
                rest /= alphabet.len();
            }
            f(&word);
        }
    }
}

fn fixed(world: &World, each: &mut dyn FnMut(Request)) {
    for text in &world.texts {
        let cues = text.matches("timestamp:").count();
        for n in [[cues, cues], [cues + 3, cues], [cues - 1, cues], [cues, cues - 1], [0, 0]] {
            each(Request { bytes: text.clone().into_bytes(), n: [n[0], n[1], 0, 0] });
        }
    }
    let mut ask = |text: String| each(Request { bytes: text.into_bytes(), n: [9, 9, 0, 0] });
    each_word(&["0", "7", "x", "+", "-", " ", "65536"], 5, &mut |w| ask(format!("size:{w}")));
    each_word(&["0x", "1", "f", "g", ",", " ", "+", "0"], 5, &mut |w| ask(format!("palette:{w}")));
    each_word(&["1", ":", "+", "-", ",", " ", "9223372036854775807"], 5, &mut |w| ask(format!("timestamp:{w},filepos:0")));
    each_word(&["0x", "1", "a", "+", " ", "ffffffffffffffff", "18446744073709551615"], 5, &mut |w| ask(format!("timestamp:0,filepos:{w}")));
    each_word(&["0x", "+", "0", "1", "00000000", "ffffffff"], 5, &mut |w| ask(format!("timestamp:0,filepos:{w}")));
    each_word(&["timestamp:", "filepos:", "0", ",", "\n", "#", "size:", "1x1"], 5, &mut |w| ask(w.into()));
    positions::fixed(&mut |text| {
        for n in (0..4).flat_map(|starts| (0..4).map(move |positions| [starts, positions, 0, 0])) {
            each(Request { bytes: text.clone().into_bytes(), n });
        }
    });
    // all texts of up to two bytes
    for a in 0..=255 {
        each(Request { bytes: vec![a], n: [9, 9, 0, 0] });
        for b in 0..=255 {
            each(Request { bytes: vec![a, b], n: [9, 9, 0, 0] });
        }
    }
    for text in SHORT_TEXTS {
        for starts in [0, 1, 2, 9] {
            for positions in [0, 1, 2, 9] {
                each(Request { bytes: text.to_vec(), n: [starts, positions, 0, 0] });
            }
        }
    }
    // every byte before a line's word, within it and after it
    for b in 0..=255 {
        for at in [0, 3, 5, 8, 13, 21, 22, 29, 30, 31] {
            let mut bytes = b"timestamp:0:00:1:0,filepos: 1a\n".to_vec();
            bytes.insert(at, b);
            each(Request { bytes, n: [1, 2, 0, 0] });
        }
    }
}

// Starts at the ends of their range, and near 0.
pub const TIMES: [&str; 10] = ["0", "0:0:0:1", "0:0:0:-1", "0:0:1", "0:0:-1", "0:0:9223372036854:775", "0:0:9223372036854:774", "0:0:-9223372036854:-775", "0:0:-9223372036854:-774", "1281023894"];

fn fixed_cues(world: &World, each: &mut dyn FnMut(Request)) {
    for text in &world.texts {
        for cue in 0..=text.matches("timestamp:").count() {
            each(Request { bytes: text.clone().into_bytes(), n: [cue, 0, 0, 0] });
        }
    }
    each_word(&["0:0:1", ",filepos:5", "\ntimestamp:", "palette:", "a", "\n"], 5, &mut |w| {
        for cue in 0..3 {
            each(Request { bytes: format!("timestamp:{w}").into_bytes(), n: [cue, 0, 0, 0] });
        }
    });
    for a in TIMES {
        for b in TIMES {
            for c in TIMES {
                for cue in 0..4 {
                    let lines = [a, b, c].map(|t| format!("timestamp:{t},filepos:{cue}\n"));
                    each(Request { bytes: lines.concat().into_bytes(), n: [cue, 0, 0, 0] });
                }
            }
        }
    }
    positions::fixed(&mut |text| {
        for cue in 0..4 {
            each(Request { bytes: text.clone().into_bytes(), n: [cue, 0, 0, 0] });
        }
    });
    for text in SHORT_TEXTS {
        for cue in [0, 1, 2, 65535, 65536, 1 << 32, usize::MAX - 1, usize::MAX] {
            each(Request { bytes: text.to_vec(), n: [cue, 0, 0, 0] });
        }
    }
}

// Mostly no bytes.
pub fn short_text(r: &mut Random) -> Vec<u8> {
    match r.below(6) {
        0 => vec![*r.pick(b" \n#\0")],
        1 => {
            let some = r.within(2, 6);
            (0..some).map(|_| *r.pick(&BLANKS)).collect()
        }
        _ => Vec::new(),
    }
}

pub fn number(r: &mut Random) -> String {
    match r.below(14) {
        0 => String::new(),
        12 => format!("{}{}{}", blank(r), r.below(100), blank(r)),
        13 => format!("0{}0x{}", r.below(3), r.below(100)),
        1 => "+".into(),
        2 => format!("-{}", r.below(100)),
        3 => format!("+{}", r.below(100)),
        4 => format!("{}", r.next()),
        5 => format!("{:x}", r.next() >> r.below(64)),
        6 => (*r.pick(&["9223372036854775807", "-9223372036854775808", "9223372036854775808", "2562047788", "2562047789", "65535", "65536", "000000000000000000000012"])).into(),
        _ => format!("{:02}", r.below(100)),
    }
}

// Lines that are faulty with something wrong in the place of `{}`, from 2 to 9.
pub const LINES: [&str; 8] = [
    "size: {}x5",
    "size: 720x{}",
    "palette: 0, {}, 1",
    "timestamp: filepos: 0",
    "timestamp: 0:0:1:0",
    "timestamp: 0:{}:1, filepos: 0",
    "timestamp: {}, filepos: 0",
    "timestamp: 0:0:1, filepos: {}",
];

// One of these lines; what stands in the place may be sound.
pub fn faulty(r: &mut Random, i: usize) -> String {
    let wrong = match i {
        6 => (*r.pick(&["2562047789", "9223372036854775807:0:0:0", "0:0:9223372036855", "1:9223372036854775807", "-2562047789"])).into(),
        _ => {
            let odd = number(r);
            if odd.trim().is_empty() || r.once_in(2) { (*r.pick(&["g", "-", "+-1", "99999999999999999999999999", "1.5"])).into() } else { odd }
        }
    };
    LINES[i].replace("{}", &wrong)
}

fn blank(r: &mut Random) -> &'static str {
    *r.pick(&["", "", "", " ", "  ", "\t", "\r", "\x0b", "\x0c"])
}

pub fn line(r: &mut Random, out: &mut String) {
    out.push_str(blank(r));
    match r.below(16) {
        0 => out.push_str("# a remark: size: 1x1"),
        1 => out.push_str(*r.pick(&["langidx: 0", "Size: 1x1", "size: 720", "timestamp", "palette", "filepos: 0", "size :1x1"])),
        2..5 => {
            let (w, h) = if r.once_in(4) { (number(r), number(r)) } else { (r.below(2000).to_string(), r.below(2000).to_string()) };
            out.push_str(&format!("size:{}{w}{}x{}{h}", blank(r), blank(r), blank(r)));
        }
        5..8 => {
            out.push_str("palette:");
            for _ in 0..r.below(19) {
                out.push_str(*r.pick(&[",", ", ", " ", ",,", "\t"]));
                let token = match r.below(40) {
                    0 => number(r),
                    1 => "0x".into(),
                    2 => "g".into(),
                    3 => format!("0x0x{:x}", r.below(1 << 24)),
                    4 => format!("{:x}", r.next() >> r.below(40)),
                    _ => format!("{:06x}", r.below(1 << 24)),
                };
                out.push_str(&token);
            }
        }
        _ => {
            let time = if r.once_in(3) {
                let fields = r.below(6);
                (0..fields).map(|_| number(r)).collect::<Vec<_>>().join(":")
            } else {
                format!("{:02}:{:02}:{:02}:{:03}", r.below(30), r.below(60), r.below(60), r.below(1000))
            };
            let position = match r.below(16) {
                0..4 => format!("{}{}", r.pick(&["", "0x", "0x0x", "+", "0X"]), number(r)),
                4 => positions::kept(r),
                5 if r.once_in(2) => positions::greater(r),
                _ => format!("{:09x}", r.below(1 << 24)),
            };
            let mut parts = vec![time, format!("filepos:{}{position}", blank(r))];
            match r.below(16) {
                0 => {
                    parts.remove(0);
                }
                1 => {
                    parts.pop();
                }
                2 => parts.reverse(),
                3 => parts.push("filepos: 7".into()),
                4 => parts.push("other".into()),
                5 => parts.insert(0, String::new()),
                _ => {}
            }
            out.push_str(&format!("timestamp:{}{}", blank(r), parts.join(*r.pick(&[",", ", ", " ,"]))));
        }
    }
    out.push_str(blank(r));
}

// Some lines of a real text, in place.
fn real(world: &World, r: &mut Random) -> String {
    let lines: Vec<&str> = r.pick(&world.texts).split_inclusive('\n').collect();
    let from = if r.once_in(3) { 0 } else { r.below(lines.len()) };
    let to = (from + r.within(1, 12)).min(lines.len());
    lines[from..to].concat()
}

fn text(world: &World, r: &mut Random) -> Vec<u8> {
    let mut text = String::new();
    if r.once_in(4) {
        text = real(world, r);
    } else {
        for _ in 0..r.within(1, 5) {
            line(r, &mut text);
            text.push_str(*r.pick(&["\n", "\n", "\r\n", "\n\n"]));
        }
    }
    let mut bytes = text.into_bytes();
    if r.once_in(6) {
        for _ in 0..r.within(1, 3) {
            let i = r.below(bytes.len());
            match r.below(4) {
                0 => bytes.truncate(i.max(1)),
                1 => bytes.insert(i, *r.pick(b"0 x:,+-\nfF#\r9")),
                _ => bytes[i] = if r.once_in(4) { r.byte() & 0x7F } else { *r.pick(b"0 x:,+-\nfF#\r9") },
            }
        }
    }
    if r.once_in(30) {
        let i = r.below(bytes.len());
        bytes[i] = 0x80 | r.byte();
    }
    bytes
}

fn generate(world: &World, r: &mut Random) -> Request {
    if r.once_in(8) {
        return Request { bytes: short_text(r), n: [r.below(3), r.below(3), 0, 0] };
    }
    if r.once_in(6) {
        let n = if r.once_in(2) { [12, 12, 0, 0] } else { [r.below(6), r.below(6), 0, 0] };
        return Request { bytes: positions::text(r), n };
    }
    let bytes = text(world, r);
    let mut n = [12, 12, 0, 0];
    if r.once_in(10) {
        n[r.below(2)] = r.below(4);
    }
    if r.once_in(10) {
        n[r.below(2)] = r.within(4, 20);
    }
    Request { bytes, n }
}

fn generate_cue(world: &World, r: &mut Random) -> Request {
    if r.once_in(16) {
        let cue = if r.once_in(2) { 0 } else { *r.pick(&[1, 2, 255, 256, 65535, usize::MAX]) };
        return Request { bytes: short_text(r), n: [cue, 0, 0, 0] };
    }
    let mut bytes = if r.once_in(6) { positions::text(r) } else { text(world, r) };
    if r.once_in(6) {
        // two cues more, whose starts may be far apart
        for _ in 0..2 {
            bytes.extend(format!("\ntimestamp: {}, filepos: 1", r.pick(&TIMES)).into_bytes());
        }
    }
    let there = bytes.windows(10).filter(|w| w == b"timestamp:").count() + r.once_in(6) as usize;
    let cue = if r.once_in(40) { usize::MAX - r.below(3) } else { r.below(there.max(1)) };
    Request { bytes, n: [cue, 0, 0, 0] }
}

// The refusal that a message of the original stands for, by a part of it.
fn number_of(message: &str) -> u8 {
    const PARTS: &[(&str, u8)] = &[("bad size width", 2), ("bad size height", 3), ("bad palette entry", 4), ("timestamp missing", 5), ("filepos missing", 6), ("timestamp ", 7), ("bad filepos", 9)];
    PARTS.iter().find(|p| message.contains(p.0)).map_or(255, |p| p.1)
}

pub enum Expected {
    Refused(u8, Option<&'static str>),
    Given(Index),
}

// The rule, where the original's words for a panic say that the difference of two starts leaves signed 64 bits.
pub fn far(words: &str) -> Option<&'static str> {
    words.contains("overflow").then_some("durations: the ceiling, and a difference below signed 64 bits")
}

// The duration that is asked for there.
pub fn far_duration(start: i64, next: Option<i64>) -> Option<i64> {
    next.map(|next| (next as i128 - start as i128).clamp(0, i64::MAX as i128) as i64)
}

// Room for any number of cues.
pub const ANY: [usize; 2] = [usize::MAX; 2];

// What the port must say of a text, the words of the original where it panicked, and what is known of the text's positions.
pub struct Asked {
    pub expected: Expected,
    pub panicked: Option<String>,
    pub said: Said,
}

impl Asked {
    fn new(expected: Expected) -> Asked {
        Asked { expected, panicked: None, said: Said::default() }
    }
}

// What is asked for of a text with room for so many starts and positions.
pub fn asked(side: &Side, bytes: &[u8], [starts, positions]: [usize; 2]) -> Asked {
    const SHORT: Expected = Expected::Refused(10, Some("10: cue buffers are lent, and too short"));
    if (side.empty.no_bytes)(bytes) {
        let room = (side.empty.has_room)(starts, positions);
        return Asked::new(if room { Expected::Given((side.empty.index)()) } else { Expected::Refused(10, None) });
    }
    let room = starts.min(positions);
    if bytes.iter().any(|&b| b >= 0x80) {
        return Asked::new(Expected::Refused(1, Some("1: a byte of 80 or above")));
    }
    let text = std::str::from_utf8(bytes).expect("bytes below 80");
    let whole = match tried(|| (side.index)(text)) {
        Ok(Ok(index)) if index.cues.iter().any(|cue| (side.stored.above)(cue.1)) => Some(index),
        Ok(Ok(index)) => {
            let last = index.cues.iter().any(|cue| cue.1 == u32::MAX as u64);
            let expected = if index.cues.len() <= room { Expected::Given(index) } else { SHORT };
            return Asked { expected, panicked: None, said: Said { last, ..Default::default() } };
        }
        _ => None,
    };
    // of each line what the original says of the text so far, up to a refusal, and of the line alone
    let (mut end, mut refusal, mut panicked, mut lines) = (0, 0, None, Vec::new());
    for part in text.split_inclusive('\n') {
        end += part.len();
        let mut cues = 0;
        if refusal == 0 {
            match tried(|| (side.index)(&text[..end])) {
                Err(words) => (refusal, panicked) = (8, Some(words)),
                Ok(Err(message)) => refusal = number_of(&message),
                Ok(Ok(index)) => cues = index.cues.len(),
            }
        }
        let alone = tried(|| (side.index)(part)).ok().and_then(Result::ok);
        let position = alone.and_then(|index| if let [(_, position)] = index.cues[..] { Some(position) } else { None });
        lines.push(Line { refusal, cues, position });
    }
    let at = (side.stored.first)(&lines, room);
    let (expected, panicked) = match (at, whole) {
        (Some((_, 8)), _) => {
            // a panic for any other reason is no answer that a rule covers
            let rule = panicked.iter().any(|words| words.contains("overflow")).then_some("8: a step of the sum leaves signed 64 bits");
            (Expected::Refused(8, rule), panicked)
        }
        (Some((_, 10)), _) => (SHORT, None),
        (Some((_, 41)), _) => (Expected::Refused(41, Some(GREATER)), None),
        (Some((_, number)), _) => (Expected::Refused(number, None), None),
        (None, Some(index)) => (Expected::Given(index), None),
        (None, None) => (Expected::Refused(255, None), Some("the whole text is refused, and no line of it".into())),
    };
    Asked { expected, panicked, said: Said { last: false, lines, at, room } }
}

fn compare(side: &Side, q: &Request) -> Outcome {
    let [a, b, ..] = q.n;
    let (mut starts, mut positions) = (vec![START; a], vec![NUMBER as u32; b]);
    let (mut palette, mut numbers) = ([BYTE; port::COLOURS], [NUMBER; port::INDEX_NUMBERS]);
    let refusal = port::parse_idx(&q.bytes, &mut starts, &mut positions, &mut palette, &mut numbers);
    let Asked { expected, panicked, said } = asked(side, &q.bytes, [a, b]);
    let mut o = Outcome { refusal, panicked, empty: side.empty.rule(&q.bytes), ..Default::default() };
    let mut stored = 0;
    match expected {
        Expected::Refused(number, rule) => {
            o.rule = rule;
            o.must(refusal == number, || format!("{number} is asked for; the port says {refusal}"));
            o.must(palette == [BYTE; port::COLOURS] && numbers == [NUMBER; port::INDEX_NUMBERS], || "the palette or the numbers are written on a refusal".into());
        }
        Expected::Given(index) => {
            o.both = refusal == 0 && o.empty.is_none();
            o.must(refusal == 0, || format!("an accepted text; the port says {refusal}"));
            if refusal == 0 {
                stored = numbers[port::CUES].min(a).min(b);
                let given = Index {
                    size: (numbers[port::WIDTH] as u16, numbers[port::HEIGHT] as u16),
                    palette: palette.to_vec(),
                    has_palette: numbers[port::COLOURED] == 1,
                    cues: starts[..stored].iter().copied().zip(positions[..stored].iter().map(|&p| p.into())).collect(),
                };
                o.must(given == index, || format!("{index:?}; the port says {given:?}"));
                o.must(numbers == [index.size.0 as usize, index.size.1 as usize, index.has_palette as usize, index.cues.len()], || format!("numbers {numbers:?} for {index:?}"));
            }
        }
    }
    o.must(starts[stored..].iter().all(|&s| s == START), || "starts are written where nothing is stored".into());
    o.must(positions[stored..].iter().all(|&p| p == NUMBER as u32), || "positions are written where nothing is stored".into());
    o.met.extend(empty::met(&o, &q.bytes));
    o.met.extend(stored::met(&o, &q.bytes, &said, None));
    o
}

fn compare_cue(side: &Side, q: &Request) -> Outcome {
    let cue = q.n[0];
    let (mut start, mut palette, mut numbers) = (START, [BYTE; port::COLOURS], [NUMBER as u64; port::CUE_NUMBERS]);
    let refusal = port::pick_cue(&q.bytes, cue, &mut start, &mut palette, &mut numbers);
    let Asked { expected, panicked, said } = asked(side, &q.bytes, ANY);
    let mut o = Outcome { refusal, panicked, empty: side.empty.rule(&q.bytes), ..Default::default() };
    let mut refused = true;
    match expected {
        Expected::Refused(number, rule) => {
            o.rule = rule;
            o.must(refusal == number, || format!("{number} is asked for; the port says {refusal}"));
        }
        Expected::Given(index) if cue >= index.cues.len() => {
            o.rule = Some("11: a cue by its number is added");
            o.must(refusal == 11, || format!("{} cues; the port says {refusal} of cue {cue}", index.cues.len()));
        }
        Expected::Given(index) => {
            refused = false;
            let (theirs, position) = index.cues[cue];
            let next = index.cues.get(cue + 1).map(|c| c.0);
            let lasts = match tried(|| (side.duration)(theirs, next)) {
                Ok(lasts) => lasts,
                Err(words) => {
                    o.rule = far(&words);
                    o.panicked = Some(words);
                    far_duration(theirs, next)
                }
            };
            o.both = refusal == 0 && o.panicked.is_none() && o.empty.is_none();
            o.must(refusal == 0, || format!("there is a cue {cue}; the port says {refusal}"));
            o.must(start == theirs, || format!("the start {theirs}; the port says {start}"));
            let asked = [position, lasts.is_some() as u64, lasts.unwrap_or(0) as u64, index.has_palette as u64];
            o.must(numbers == asked, || format!("the numbers {asked:?}; the port says {numbers:?}"));
            o.must(palette[..] == index.palette, || "the palette".into());
        }
    }
    o.must(!refused || start == START && palette == [BYTE; port::COLOURS] && numbers == [NUMBER as u64; port::CUE_NUMBERS], || "start, palette or numbers are written on a refusal".into());
    o.met.extend(empty::met(&o, &q.bytes));
    o.met.extend(stored::met(&o, &q.bytes, &said, Some(cue)));
    o
}
