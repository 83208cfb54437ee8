// Chains of control blocks: units whose fields are fills, with commands of all kinds, blocks that overlap and words next that point anywhere.
use crate::class::*;
use crate::classes::{bands, crowd, unit};
use crate::limit;
use crate::random::Random;
use crate::times::STOOD;

pub const CLASS: Class = Class {
    name: "control",
    fixed,
    generate,
    compare: unit::compare,
    refusals: &[16, 17, 18, 19, 20, 21, 22, 25, 26, 34],
    met: &STOOD,
    rarer: &[&limit::ONE, &limit::SEVERAL, &limit::OVERLAP],
    accepted: true,
    dear: 1,
};

// a unit whose commands are these bytes, after four bytes of fills
fn with_commands(commands: &[u8]) -> Vec<u8> {
    let mut bytes = vec![0, 0, 0, 8, 0, 0, 0, 0, 0x12, 0x34, 0, 0];
    bytes.extend(commands);
    let length = bytes.len();
    unit::set_word(&mut bytes, 0, length);
    bytes
}

fn fixed(_: &World, each: &mut dyn FnMut(Request)) {
    let n = [1, 0, 0, 0];
    each(Request { bytes: with_commands(&[]), n });
    // all pairs of bytes as commands, and each command with too few and enough parameters
    for a in 0..=255u8 {
        for b in 0..=255u8 {
            each(Request { bytes: with_commands(&[a, b]), n });
        }
        for length in 0..9 {
            for parameter in [0x00, 0x01, 0x04, 0x0F, 0xFF] {
                let mut commands = vec![a];
                commands.resize(1 + length, parameter);
                each(Request { bytes: with_commands(&commands), n });
            }
        }
    }
}

fn command(r: &mut Random, fills: usize, out: &mut Vec<u8>) {
    match r.below(20) {
        0 => out.push(0x00),
        1 | 2 => out.push(0x01),
        3 | 4 => out.push(0x02),
        5..8 => out.extend([0x03, r.byte(), r.byte()]),
        8..11 => out.extend([0x04, r.byte(), r.byte()]),
        11..14 => {
            let (x, y) = (r.below(4000), r.below(4000));
            unit::area(out, x, x + r.below(50), y, y + r.below(fills));
        }
        14..16 => {
            out.push(0x06);
            let top = 4 + 2 * r.below(2);
            let bottom = if r.once_in(3) { 0 } else { r.below(8) };
            unit::put(out, top);
            unit::put(out, bottom);
        }
        16..19 => {
            let payload = bands::payload(r);
            unit::change(out, &payload);
        }
        _ => out.push(0xFF),
    }
}

fn generate(_: &World, r: &mut Random) -> Request {
    if r.once_in(24) {
        let number = unit::refused_with(r);
        return Request { bytes: crowd::unit(r, number), n: unit::lending(r) };
    }
    let fills = r.within(4, 16);
    let mut bytes = vec![0; 4 + 2 * fills];
    for b in bytes[4..].iter_mut().skip(1).step_by(2) {
        *b = r.byte();
    }
    let some = r.below(4);
    bytes.extend(vec![0; some]);
    let control = bytes.len();
    let blocks = r.below(6);
    let mut places = Vec::new();
    for _ in 0..blocks {
        places.push(bytes.len());
        unit::put(&mut bytes, unit::delay(r));
        unit::put(&mut bytes, 0);
        for _ in 0..r.below(6) {
            command(r, fills.min(8), &mut bytes);
        }
        if !r.once_in(12) {
            bytes.push(0xFF);
        }
    }
    let length = bytes.len();
    for i in 0..places.len() {
        let next = match r.below(12) {
            // a place that is no block's
            0 => r.within(places[i], length + 4),
            1 => 0,
            2 => places[i],
            3 => *r.pick(&places),
            _ => places.get(i + 1).copied().unwrap_or(places[i]),
        };
        unit::set_word(&mut bytes, places[i] + 2, next);
    }
    unit::set_word(&mut bytes, 0, length);
    unit::set_word(&mut bytes, 2, control);
    if r.once_in(2) {
        match r.below(9) {
            0 => {
                let cut = r.within(1, 12);
                unit::set_word(&mut bytes, 0, length.saturating_sub(cut).max(control));
            }
            1 if length > control => {
                let i = r.within(control, length - 1);
                bytes[i] = r.below(9) as u8;
            }
            2 if length > control => {
                let i = r.within(control, length - 1);
                bytes[i] = r.byte();
            }
            3 => {
                // the last block ends in a faulty command
                const FAULTY: [&[u8]; 10] = [&[0x03, 1], &[0x05, 1, 2, 3, 4, 5], &[0x06, 0, 4], &[0x07], &[0x07, 0], &[0x07, 0, 1], &[0x07, 0, 0], &[0x07, 0, 9, 1], &[0x08], &[0xFE]];
                let faulty = *r.pick(&FAULTY);
                if bytes.last() == Some(&0xFF) {
                    bytes.pop();
                }
                bytes.extend(faulty);
                let length = bytes.len();
                unit::set_word(&mut bytes, 0, length);
            }
            4 => {
                if bytes.last() == Some(&0xFF) && blocks > 0 {
                    bytes.pop();
                    let x = r.within(1, 4000);
                    if r.once_in(2) {
                        unit::area(&mut bytes, x, x - 1, 0, 0);
                    } else {
                        unit::area(&mut bytes, 0, 0, x, x - 1);
                    }
                    let length = bytes.len();
                    unit::set_word(&mut bytes, 0, length);
                }
            }
            5 => {
                if bytes.last() == Some(&0xFF) && blocks > 0 {
                    bytes.pop();
                    bytes.push(0x06);
                    let top = if r.once_in(2) { bytes.len() + 4 + r.below(3) } else { r.below(bytes.len() + 4) };
                    unit::put(&mut bytes, top);
                    let bottom = r.below(control + 3);
                    unit::put(&mut bytes, bottom);
                    let length = bytes.len();
                    unit::set_word(&mut bytes, 0, length);
                }
            }
            6 => {
                let word = r.below(length + 4);
                unit::set_word(&mut bytes, 2, word);
            }
            7 => {
                let cut = r.below(length);
                bytes.truncate(cut);
            }
            _ => {}
        }
    }
    Request { bytes, n: unit::lending(r) }
}
