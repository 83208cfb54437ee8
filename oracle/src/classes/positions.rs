// Index texts with positions about 2^32, above which none is stored, for the classes of index texts, cues and canvases.
use crate::classes::idx::{LINES, faulty};
use crate::random::Random;

// Positions that are stored, that are too great for it, and that are none.
pub const KEPT: [&str; 6] = ["FFFFFFFF", "0xffffffff", "+ffffffff", "0x+FFFFFFFF", "0x0x00000000000000000FFFFFFFF", "fffffffe"];
pub const GREATER: [&str; 13] = [
    "100000000",
    "0x100000000",
    "+100000000",
    "0x+100000000",
    "000000000100000000",
    "100000001",
    "4294967296",
    "1FFFFFFFF",
    "FFFFFFFFFFFFFFFF",
    "10000000000000000",
    "+10000000000000000",
    "00018446744073709551615",
    "18446744073709551615",
];
pub const NONE: [&str; 6] = ["18446744073709551616", "0x10000000000000000", "0x18446744073709551615", "1000000000000000F", "-1", "zz"];

pub fn kept(r: &mut Random) -> String {
    match r.below(4) {
        0 => format!("{}{:x}", r.pick(&["", "0x", "+", "0x+", "000"]), r.next() >> r.within(32, 60)),
        1 => format!("{:09X}", (1u64 << 32) - r.within(1, 4) as u64),
        _ => (*r.pick(&KEPT)).into(),
    }
}

pub fn greater(r: &mut Random) -> String {
    match r.below(4) {
        0 => format!("{}{:x}", r.pick(&["", "0x", "+", "0x+", "000"]), 1 << r.within(32, 63) | r.next() >> 32),
        1 => format!("{}", 10_000_000_000_000_000 + r.next() % 8_446_744_073_709_551_615),
        _ => (*r.pick(&GREATER)).into(),
    }
}

// A cue's line with that position; seldom another position stands before it, which is not read.
pub fn line(r: &mut Random, position: &str) -> String {
    let start = format!("{}:{:02}:{:02}:{:03}", r.below(30), r.below(60), r.below(60), r.below(1000));
    match r.below(8) {
        0 => format!("timestamp: filepos:{position}, {start}"),
        1 => format!("timestamp: {start}, filepos: {}, filepos: {position}", greater(r)),
        2 => format!("timestamp:{start},filepos:{position},other"),
        _ => format!("timestamp: {start}, filepos: {position}"),
    }
}

// Up to five cues, none, some or all of them with a greater position, and in some texts a line that is faulty.
pub fn text(r: &mut Random) -> Vec<u8> {
    let some = *r.pick(&[0, 0, 0, 1, 1, 2, 4]);
    let mut lines: Vec<String> = Vec::new();
    for _ in 0..r.within(1, 5) {
        let position = if r.below(4) < some { greater(r) } else { kept(r) };
        lines.push(line(r, &position));
    }
    if r.once_in(if some > 0 { 2 } else { 8 }) {
        let (i, none) = (r.below(LINES.len()), *r.pick(&NONE));
        let wrong = if r.once_in(8) { line(r, none) } else { faulty(r, i) };
        lines.insert(r.below(lines.len() + 1), wrong);
    }
    if r.once_in(4) {
        lines.insert(r.below(lines.len() + 1), (*r.pick(&["size: 720x576", "palette: 1, 2, 3", "# timestamp: 0, filepos: 100000000", "", "filepos: 100000000"])).into());
    }
    let mut bytes = lines.join(*r.pick(&["\n", "\n", "\r\n", " \n\t"])).into_bytes();
    if r.once_in(30) {
        let i = r.below(bytes.len());
        bytes[i] = 0x80 | r.byte();
    }
    bytes
}

// The same texts in every run: each of these positions alone, with a good line, with a faulty line of each number, and with both, in every order,
// and each two of them.
pub fn fixed(each: &mut dyn FnMut(String)) {
    const GOOD: &str = "timestamp: 0:0:2, filepos: 0";
    const FAULTY: [&str; 8] = [
        "size: gx5",
        "size: 720x65536",
        "palette: 0, g",
        "timestamp: filepos: 0",
        "timestamp: 0:0:1",
        "timestamp: 0:g, filepos: 0",
        "timestamp: 2562047789, filepos: 0",
        "timestamp: 0, filepos: zz",
    ];
    let forms: Vec<&str> = KEPT.into_iter().chain(GREATER).chain(NONE).collect();
    let cue = |position: &str| format!("timestamp: 0:0:1, filepos: {position}");
    for &form in &forms {
        let line = &cue(form)[..];
        each(line.into());
        each([line, GOOD].join("\n"));
        each([GOOD, line].join("\n"));
        for wrong in FAULTY {
            each([line, wrong].join("\n"));
            each([wrong, line].join("\n"));
            for three in [[line, GOOD, wrong], [line, wrong, GOOD], [GOOD, line, wrong], [GOOD, wrong, line], [wrong, line, GOOD], [wrong, GOOD, line]] {
                each(three.join("\n"));
            }
        }
        for &other in &forms {
            each([line, &cue(other)].join("\n"));
            each(format!("timestamp: 0:0:1, filepos: {other}, filepos: {form}"));
        }
    }
}
