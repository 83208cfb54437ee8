// Files with units at a position, bare or in packets of one stream or two. n: the position, the stream, the bytes of scratch.
use crate::class::*;
use crate::classes::pes;
use crate::port;
use crate::random::Random;
use crate::side::{Side, Spot};
use crate::walk::{ABOVE, ABSENT, FIRST_ID, PARTED, TOP_STREAM, bodies, stream_at, walk};

pub const CLASS: Class = Class { name: "packets", fixed, generate, compare, refusals: &[12, 13, 14, 32], met: &[PARTED, ABSENT], rarer: &[], accepted: true, dear: 1 };

fn fixed(world: &World, each: &mut dyn FnMut(Request)) {
    for (file, unit) in world.files.iter().zip(&world.units) {
        let stream = stream_at(file, 0);
        for scratch in [unit.len(), unit.len() + 9, unit.len() - 1] {
            each(Request { bytes: file.clone(), n: [0, stream, scratch, 0] });
        }
        each(Request { bytes: file.clone(), n: [0, (stream + 1) % 32, unit.len(), 0] });
    }
    // real units by twos in packets of two streams in turn; each is asked for, and a third
    for pair in world.units.windows(2) {
        let mut bytes = Vec::new();
        let mut parts = [pair[0].chunks(900), pair[1].chunks(900)];
        while parts.iter().any(|p| p.len() > 0) {
            for (id, parts) in (FIRST_ID..).zip(&mut parts) {
                if let Some(part) = parts.next() {
                    plain(id, part, &mut bytes);
                }
            }
        }
        for stream in 0..3 {
            each(Request { bytes: bytes.clone(), n: [0, stream, 65535, 0] });
        }
    }
    // every first byte of a body between the two parts of a unit, for every stream and two more
    for id in 0..=255u8 {
        for stream in 0..=TOP_STREAM + 2 {
            let mut bytes = Vec::new();
            plain(FIRST_ID + stream as u8, &[0], &mut bytes);
            plain(id, &[4, 0, 4], &mut bytes);
            plain(FIRST_ID + stream as u8, &[4, 0, 9], &mut bytes);
            each(Request { bytes, n: [0, stream, 4, 0] });
        }
    }
    // every code, with every small length and every room for it
    for code in 0..=255u8 {
        for length in 0..4u8 {
            for room in 0..6 {
                let mut bytes = vec![0, 0, 1, code, 0, length];
                bytes.resize(6 + room, 0x80);
                bytes.extend([0, 0, 1, 0xBD, 0, 8, 0x80, 0, 0, 0x20, 0, 4, 0, 4]);
                each(Request { bytes, n: [0, 0, 4, 0] });
            }
        }
    }
    // every byte after a pack's code, and every last byte of a pack of 10 bytes with its stuffing and of 8
    for b in 0..=255u8 {
        for last in 0..=255u8 {
            for (size, stuffing) in [(10, last % 8), (8, 0)] {
                let mut bytes = vec![0, 0, 1, 0xBA, b];
                bytes.resize(3 + size, 0);
                bytes.push(last);
                bytes.resize(4 + size + stuffing as usize, 0xFF);
                bytes.extend([0, 0, 1, 0xBD, 0, 8, 0x80, 0, 0, 0x20, 0, 4, 0, 4]);
                each(Request { bytes, n: [0, 0, 4, 0] });
            }
        }
    }
}

// A packet with the shortest header of the newer form.
fn plain(id: u8, kept: &[u8], out: &mut Vec<u8>) {
    out.extend([0, 0, 1, 0xBD]);
    out.extend((kept.len() as u16 + 4).to_be_bytes());
    out.extend([0x80, 0, 0, id]);
    out.extend(kept);
}

fn pack(r: &mut Random, out: &mut Vec<u8>) {
    out.extend([0, 0, 1, 0xBA]);
    if r.once_in(2) {
        let stuffing = r.below(8);
        out.push(0x40 | r.byte() & 0x3F);
        out.extend(r.bytes(8));
        out.push((r.byte() & 0xF8) | stuffing as u8);
        out.extend(r.bytes(stuffing));
    } else {
        out.push(0x20 | r.byte() & 0x0F);
        out.extend(r.bytes(7));
    }
}

fn private(r: &mut Random, kept: &[u8], id: u8, out: &mut Vec<u8>) {
    // a header that is whole, and behind which the body starts with the id
    let mut head;
    loop {
        head = pes::header(r);
        let mut body = NUMBER;
        let length = head.len();
        let mut with = head.clone();
        with.extend([id, 0, 0, 0, 0, 0, 0, 0, 0, 0, 0, 0, 0]);
        if port::pes_body(&with, &mut body) == 0 && body == length {
            break;
        }
    }
    let length = head.len() + 1 + kept.len();
    out.extend([0, 0, 1, 0xBD, (length / 256) as u8, (length % 256) as u8]);
    out.extend(head);
    out.push(id);
    out.extend(kept);
}

fn other(r: &mut Random, out: &mut Vec<u8>) {
    let code = *r.pick(&[0xBB, 0xBE, 0xBF, 0xE0, 0xC0, 0xBC, 0x00, 0xFF, 0xB8]);
    let length = r.below(20);
    out.extend([0, 0, 1, code, 0, length as u8]);
    out.extend(r.bytes(length));
}

// Units in packets, each under its stream's id and all in turn as it comes, with others between them that keep nothing.
pub fn in_packets(r: &mut Random, units: &[(usize, &[u8])], bytes: &mut Vec<u8>) {
    let mut left = units.to_vec();
    left.retain(|u| !u.1.is_empty());
    while !left.is_empty() {
        match r.below(8) {
            0 | 1 => pack(r, bytes),
            2 => other(r, bytes),
            3 => {
                let id = *r.pick(&[0x1F, 0x40, 0x80, 0xA0, 0x00]);
                let some = r.below(9);
                let kept = r.bytes(some);
                private(r, &kept, id, bytes);
            }
            _ => {
                let i = r.below(left.len());
                let (stream, unit) = left[i];
                let part = if r.once_in(3) { unit.len() } else if r.once_in(4) { r.below(2) } else { r.within(1, unit.len()) }.min(60000);
                let mut kept = unit[..part].to_vec();
                if part == unit.len() && r.once_in(3) {
                    kept.extend([1, 2, 3]);
                }
                private(r, &kept, FIRST_ID + stream as u8, bytes);
                left[i].1 = &unit[part..];
                left.retain(|u| !u.1.is_empty());
            }
        }
    }
}

// Another stream than this one.
pub fn another(r: &mut Random, stream: usize) -> usize {
    (stream + r.within(1, TOP_STREAM)) % (TOP_STREAM + 1)
}

// A stream above 31, often with this one in its low bits.
pub fn above(r: &mut Random, stream: usize) -> usize {
    match r.below(4) {
        0 => r.within(TOP_STREAM + 1, 300),
        1 => *r.pick(&[32, 33, 224, 255, 256, 65535, 65536, usize::MAX]),
        _ => stream + *r.pick(&[32, 64, 128, 256, 65536 - 32, 65536, 1 << 32, usize::MAX - 31]),
    }
}

// A unit, of which the first word says how long it is, but where it is very short.
fn some_unit(world: &World, r: &mut Random) -> Vec<u8> {
    let most = *r.pick(&[30, 300]);
    let t = if r.once_in(6) { r.below(6) } else if r.once_in(50) { r.within(1000, 65535) } else { r.within(4, most) };
    let mut unit = if r.once_in(40) { r.pick(&world.units).clone() } else { r.bytes(t.max(2)) };
    if unit.len() < 60000 && t < 4 || unit.len() == t {
        unit[0] = (t / 256) as u8;
        unit[1] = (t % 256) as u8;
    }
    unit
}

fn generate(world: &World, r: &mut Random) -> Request {
    let lead = if r.once_in(2) { 0 } else { r.below(9) };
    let mut bytes = r.bytes(lead);
    let unit = some_unit(world, r);
    let wanted = (unit[0] as usize * 256 + unit[1] as usize).min(unit.len());
    let mut stream = r.below(TOP_STREAM + 1);
    let second = another(r, stream);
    if r.once_in(8) {
        bytes.extend(&unit);
    } else if r.once_in(2) {
        in_packets(r, &[(stream, &unit)], &mut bytes);
    } else {
        let beside = some_unit(world, r);
        in_packets(r, &[(stream, &unit), (second, &beside)], &mut bytes);
    }
    let some = r.below(8);
    bytes.extend(r.bytes(some));
    let mut position = lead;
    let mut scratch = wanted + if r.once_in(3) { r.below(9) } else { 0 };
    match r.below(14) {
        0 => position = bytes.len() + r.below(3),
        1 => scratch = if r.once_in(2) { wanted.saturating_sub(1) } else { r.below(wanted + 1) },
        2 => bytes.truncate(r.below(bytes.len() + 1)),
        3 => {
            for _ in 0..r.within(1, 3) {
                let i = r.below(bytes.len());
                bytes[i] = if r.once_in(2) { r.byte() } else { *r.pick(&[0x00, 0x01, 0xB9, 0xBA, 0xBD, 0x20, 0x80, 0xFF]) };
            }
        }
        4 => position = r.below(bytes.len() + 1),
        5 if bytes.len() > lead + 20 => {
            let i = r.within(lead, bytes.len() - 4);
            bytes.splice(i..i, [0, 0, 1, 0xB9, 0, 0]);
        }
        6 => {
            // the other unit, where there is one, with scratch that may be too short for it; or any other stream
            stream = if r.once_in(2) { second } else { another(r, stream) };
            scratch += r.below(300);
        }
        7 => {
            // one body under another id
            let places: Vec<usize> = bodies(&bytes, lead).map(|b| b.0).collect();
            if !places.is_empty() {
                bytes[*r.pick(&places)] = r.within(0x1E, 0x41) as u8;
            }
        }
        _ => {}
    }
    if r.once_in(500) {
        position = usize::MAX - r.below(4);
    }
    if r.once_in(25) {
        stream = above(r, stream);
    }
    Request { bytes, n: [position, stream, scratch, 0] }
}

fn compare(side: &Side, q: &Request) -> Outcome {
    let [position, stream, room, _] = q.n;
    let mut scratch = vec![BYTE; room];
    let mut length = NUMBER;
    let mut joined = BYTE;
    let refusal = port::extract_spu(&q.bytes, position, stream, &mut scratch, &mut length, &mut joined);
    let mut o = Outcome { refusal, ..Default::default() };
    let mut stored = 0;
    if stream > TOP_STREAM {
        o.rule = Some(ABOVE);
        o.must(refusal == 32, || format!("stream {stream}; the port says {refusal}"));
    } else {
        let walk = walk(&q.bytes, position, stream);
        o.copied = walk.rule();
        match tried(|| (side.spot)(&walk.copy(&q.bytes), position)) {
            Err(words) => o.panicked = Some(words),
            Ok(Spot::Skipped) => {
                o.rule = Some("12: the original leaves the cue out");
                o.must(refusal == 12, || format!("the original leaves the cue out; the port says {refusal}"));
            }
            Ok(Spot::None { handed_on }) => {
                o.must(handed_on, || "the original finds no unit and hands on something else than the rest".into());
                o.must(refusal == 13, || format!("the original has no unit; the port says {refusal}"));
                o.met.extend(o.copied.map(|_| ABSENT));
            }
            Ok(Spot::Unit { unit, joined: packets, same }) => {
                o.must(same, || "the original hands on another unit than it finds".into());
                if packets && room < unit.len() {
                    o.rule = Some("14: scratch is lent, and too short");
                    o.must(refusal == 14, || format!("a unit of {} bytes, {room} of scratch; the port says {refusal}", unit.len()));
                } else {
                    o.both = refusal == 0;
                    o.must(refusal == 0, || format!("the original has a unit; the port says {refusal}"));
                    o.must(length == unit.len() && joined == packets as u8, || format!("length {length} for {}, joined {joined}", unit.len()));
                    if refusal == 0 && length == unit.len() {
                        let part = if packets { &scratch[..length] } else { &q.bytes[position..position + length] };
                        o.must(part == unit, || "the unit's bytes".into());
                        if packets {
                            stored = length;
                        }
                    }
                    o.met.extend((o.both && walk.parted).then_some(PARTED));
                }
            }
        }
    }
    o.must(scratch[stored..].iter().all(|&b| b == BYTE), || "scratch is written where nothing is stored".into());
    o.must(refusal == 0 || length == NUMBER && joined == BYTE, || "length or joined is written on a refusal".into());
    o
}
