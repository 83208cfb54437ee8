// Pictures that are written as units. The bytes are the picture's indices. n: width, height, bytes of the output.
use crate::class::*;
use crate::port;
use crate::random::Random;
use crate::side::Side;

pub const CLASS: Class = Class { name: "written", fixed, generate, compare, refusals: &[27, 28, 29, 30, 31], met: &[], rarer: &[], accepted: true, dear: 1 };

const MOST: usize = 65535;

fn fixed(_: &World, each: &mut dyn FnMut(Request)) {
    // every picture of up to six pixels
    for width in 1..=6usize {
        for height in 1..=6 / width {
            let pixels = width * height;
            for i in 0..1usize << (2 * pixels) {
                let bytes = (0..pixels).map(|p| (i >> (2 * p) & 3) as u8).collect();
                each(Request { bytes, n: [width, height, 100, 0] });
            }
        }
    }
    // every short run, before the end of its row and up to it
    for run in 1..=600usize {
        for more in 0..2 {
            let mut bytes = vec![1; run];
            bytes.resize(run + more, 2);
            each(Request { n: [bytes.len(), 1, 100, 0], bytes });
        }
    }
}

fn generate(_: &World, r: &mut Random) -> Request {
    let large = r.once_in(600);
    let (width, height) = if large { (r.within(3000, 4096), r.within(36, 48)) } else if r.once_in(8) { (r.within(1, 700), r.within(1, 6)) } else { (r.within(1, 70), r.within(1, 12)) };
    let mut bytes = Vec::new();
    let longest = *r.pick(&[1, 3, 5, 20, 63, 63, 300, 600]);
    while bytes.len() < width * height {
        let run = if large { 1 } else { r.within(1, longest) };
        // a run ends with its row, or long ones would seldom be within a row
        let left = width - bytes.len() % width;
        let colour = if large { (bytes.len() % 2) as u8 } else { r.byte() & 3 };
        bytes.resize(bytes.len() + run.min(left), colour);
    }
    let mut n = [width, height, if r.once_in(3) { 2000 } else { MOST + 2 }, 0];
    match r.below(20) {
        0 => {
            let (which, side) = (r.below(2), *r.pick(&[0, 4097, 65535, 65536, usize::MAX]));
            n[which] = side;
            if side == 0 && r.once_in(2) {
                bytes.clear();
            }
            if side == 4097 && r.once_in(4) {
                n[1 - which] = 1;
                bytes = vec![1; side];
            }
        }
        1 => {
            if r.once_in(2) {
                bytes.pop();
            } else {
                bytes.push(0);
            }
        }
        2 => {
            let i = r.below(bytes.len());
            bytes[i] = *r.pick(&[4, 5, 255]);
        }
        3 | 4 => n[2] = r.below(60),
        _ => {}
    }
    Request { bytes, n }
}

// Whether a run of 64 or more ends before its row does: there the original writes no code of the format.
fn long_run(width: usize, indices: &[u8]) -> bool {
    indices.chunks(width).any(|row| {
        let mut from = 0;
        (1..row.len()).any(|i| {
            if row[i] != row[i - 1] {
                let run = i - from;
                from = i;
                return run >= 64;
            }
            false
        })
    })
}

fn compare(side: &Side, q: &Request) -> Outcome {
    let [width, height, room, _] = q.n;
    let mut out = vec![BYTE; room];
    let mut length = NUMBER;
    let refusal = port::write(width, height, &q.bytes, &mut out, &mut length);
    let mut o = Outcome { refusal, ..Default::default() };
    let side_fits = |s: usize| (1..=4096).contains(&s);
    let their = |o: &mut Outcome| {
        if width <= 65535 && height <= 65535 {
            o.panicked = tried(|| (side.write)(width as u16, height as u16, &q.bytes)).err();
        }
    };
    if !side_fits(width) || !side_fits(height) {
        o.rule = Some("27: a side that is not 1 to 4,096");
        their(&mut o);
        o.must(refusal == 27, || format!("{width} by {height}; the port says {refusal}"));
    } else if q.bytes.len() != width * height {
        o.rule = Some("28: indices that are not width times height");
        their(&mut o);
        o.must(refusal == 28, || format!("{} indices; the port says {refusal}", q.bytes.len()));
    } else if q.bytes.iter().any(|&b| b > 3) {
        o.rule = Some("29: an index above 3");
        their(&mut o);
        o.must(refusal == 29, || format!("an index above 3; the port says {refusal}"));
    } else if long_run(width, &q.bytes) {
        o.rule = Some("runs of 64 or more before the row's end: read back");
        if refusal == 31 {
            out = vec![BYTE; MOST];
            let again = port::write(width, height, &q.bytes, &mut out, &mut length);
            o.must(again == 0 && length > room, || format!("31 for {room} bytes, then {again} and {length}"));
        }
        o.must(refusal == 0 || refusal == 31, || format!("the port says {refusal}"));
        if o.differs.is_none() {
            match tried(|| (side.unit)(&out[..length])) {
                Ok(Ok(d)) => {
                    o.must(d.map == q.bytes && (d.width, d.height) == (width, height), || "the picture that the original reads back".into());
                    o.must(d.numbers[..6] == [0, 0, width - 1, height - 1, 0x0132, 0x0FFF], || format!("the record {:?}", d.numbers));
                    o.must(length == out[0] as usize * 256 + out[1] as usize, || "the length word".into());
                }
                Ok(Err(message)) => o.must(false, || format!("the original does not read it back: {message}")),
                Err(words) => o.panicked = Some(words),
            }
        }
        if refusal == 31 {
            length = NUMBER;
            out = vec![BYTE; room];
        }
    } else {
        match tried(|| (side.write)(width as u16, height as u16, &q.bytes)) {
            Err(words) => o.panicked = Some(words),
            Ok(unit) if unit.len() > MOST => {
                o.rule = Some("30: a unit above 65,535 bytes");
                o.must(refusal == 30, || format!("{} bytes; the port says {refusal}", unit.len()));
            }
            Ok(unit) if unit.len() > room => {
                o.rule = Some("31: the output is lent, and too short");
                o.must(refusal == 31, || format!("{} bytes for {room}; the port says {refusal}", unit.len()));
            }
            Ok(unit) => {
                o.both = refusal == 0;
                o.must(refusal == 0 && length == unit.len(), || format!("{} bytes; the port says {refusal} and {length}", unit.len()));
                o.must(out[..unit.len()] == unit, || "the unit's bytes".into());
            }
        }
    }
    let stored = if refusal == 0 { length.min(out.len()) } else { 0 };
    o.must(out[stored..].iter().all(|&b| b == BYTE), || "the output is written where nothing is stored".into());
    o.must(refusal == 0 || length == NUMBER, || "the length is written on a refusal".into());
    o
}
