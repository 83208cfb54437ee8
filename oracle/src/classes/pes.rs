// Headers of PES packets: all short ones over an alphabet of the bytes that the rules tell apart, then random ones.
use crate::class::*;
use crate::port;
use crate::random::Random;
use crate::side::Side;

pub const CLASS: Class = Class { name: "pes", fixed, generate, compare, refusals: &[13], met: &[], rarer: &[], accepted: true, dear: 1 };

const ALPHABET: [u8; 14] = [0x00, 0x01, 0x02, 0x0F, 0x1F, 0x20, 0x2F, 0x30, 0x3F, 0x40, 0x7F, 0x80, 0xBF, 0xFF];

fn fixed(_: &World, each: &mut dyn FnMut(Request)) {
    for length in 0..=5u32 {
        for i in 0..(ALPHABET.len() as u64).pow(length) {
            let mut rest = i;
            let bytes = (0..length)
                .map(|_| {
                    let b = ALPHABET[(rest % ALPHABET.len() as u64) as usize];
                    rest /= ALPHABET.len() as u64;
                    b
                })
                .collect();
            each(Request { bytes, n: [0; 4] });
        }
    }
    // every first byte, alone and before zeros
    for b in 0..=255u8 {
        for zeros in 0..14 {
            let mut bytes = vec![b];
            bytes.resize(1 + zeros, 0);
            each(Request { bytes, n: [0; 4] });
        }
    }
}

pub fn header(r: &mut Random) -> Vec<u8> {
    let mut bytes = Vec::new();
    if r.once_in(3) {
        let data = if r.once_in(8) { r.below(256) } else { r.below(12) };
        bytes.extend([0x80 | r.byte() & 0x3F, r.byte(), data as u8]);
        bytes.extend(r.bytes(data));
    } else {
        let stuffing = if r.once_in(3) { r.within(14, 18) } else { r.below(4) };
        bytes.resize(stuffing, 0xFF);
        if r.once_in(2) {
            bytes.extend([0x40 | r.byte() & 0x3F, r.byte()]);
        }
        match r.below(4) {
            0 => {
                bytes.push(0x20 | r.byte() & 0x0F);
                bytes.extend(r.bytes(4));
            }
            1 => {
                bytes.push(0x30 | r.byte() & 0x0F);
                bytes.extend(r.bytes(9));
            }
            2 => bytes.push(0x0F),
            _ => bytes.push(r.byte()),
        }
    }
    bytes
}

fn generate(_: &World, r: &mut Random) -> Request {
    let mut bytes = header(r);
    let more = r.below(6);
    bytes.extend(r.bytes(more));
    if r.once_in(3) {
        bytes.truncate(r.below(bytes.len() + 1));
    }
    if r.once_in(4) && !bytes.is_empty() {
        let i = r.below(bytes.len());
        bytes[i] = *r.pick(&ALPHABET);
    }
    Request { bytes, n: [0; 4] }
}

fn compare(side: &Side, q: &Request) -> Outcome {
    let mut body = NUMBER;
    let refusal = port::pes_body(&q.bytes, &mut body);
    let mut o = Outcome { refusal, ..Default::default() };
    match tried(|| (side.pes_body)(&q.bytes)) {
        Err(words) => o.panicked = Some(words),
        Ok(Some(place)) => {
            o.both = refusal == 0;
            o.must(refusal == 0 && body == place, || format!("the original has a body at {place}; the port says {refusal} and {body}"));
        }
        Ok(None) => {
            o.must(refusal == 13, || format!("the original has no body; the port says {refusal}"));
            o.must(body == NUMBER, || "the body's place is written on a refusal".into());
        }
    }
    o
}
