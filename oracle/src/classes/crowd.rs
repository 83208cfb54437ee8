// Payloads and units with about 32 bands, the most that there may be, for the classes of bands, control blocks, units and canvases. A unit has
// them in one change, in several, or in blocks that overlap, so that two or three of them read the same change.
use crate::classes::bands::{Area, about};
use crate::classes::field;
use crate::classes::unit::{area, change, delay, put, set_word};
use crate::random::Random;

// How many bands, seldom others than 31 to 34.
pub fn count(r: &mut Random) -> usize {
    if r.once_in(8) { r.below(70) } else { r.within(31, 34) }
}

// The least and the most entries that a band has.
pub fn entries(r: &mut Random) -> (usize, usize) {
    *r.pick(&[(0, 0), (0, 0), (1, 1), (15, 15), (15, 15), (0, 3), (0, 15)])
}

// How the bands stand in the chain: the changes, by their numbers of bands, that follow each block's head. Blocks that overlap read all that
// follows their heads, up to the end of the last one.
pub struct Form {
    pub blocks: Vec<Vec<usize>>,
    pub overlap: bool,
}

// A number as the sum of so many, none of which is 0.
fn split(r: &mut Random, n: usize, count: usize) -> Vec<usize> {
    let mut parts = vec![1; count.min(n)];
    for _ in parts.len()..n {
        let i = r.below(parts.len());
        parts[i] += 1;
    }
    parts
}

fn form(r: &mut Random, n: usize) -> Form {
    match r.below(3) {
        1 if n > 1 => {
            let count = if r.once_in(3) { n } else { r.within(2, 5) };
            let changes = split(r, n, count);
            let most = changes.len().div_ceil(r.within(1, 3));
            Form { blocks: changes.chunks(most).map(|c| c.to_vec()).collect(), overlap: false }
        }
        2 if n > 3 => {
            let depth = r.within(2, 3);
            let mut left = n;
            let mut blocks = vec![Vec::new(); depth];
            for i in (1..depth).rev() {
                let most = left / (i + 1);
                let read = if r.once_in(2) { most } else { r.within(1, most.max(1)) }.min(most);
                left -= (i + 1) * read;
                let count = r.within(1, 3);
                blocks[i] = split(r, read, count);
            }
            blocks[0] = split(r, left, 1);
            Form { blocks, overlap: true }
        }
        _ => Form { blocks: vec![vec![n]], overlap: false },
    }
}

// The delay of a block's head after what makes the head part of the block before it: parameters of `06`, bytes after an end mark, or two
// commands.
fn delay_within(r: &mut Random, commands: &[u8], out: &mut Vec<u8>) {
    let mut word = delay(r);
    match r.below(if commands.is_empty() { 2 } else { 3 }) {
        0 => out.push(0x06),
        1 => out.extend([0x07, 0, 10, 0x0F, 0xFF, 0xFF, 0xFF]),
        _ => word = 256 * *r.pick(commands) as usize + r.within(3, 4),
    }
    put(out, word);
}

// What makes a chain refused with that number, but for 17, which takes the end of the unit.
fn wrong(r: &mut Random, number: u8, out: &mut Vec<u8>) {
    match number {
        18 => out.extend([0x07, 0, r.byte() & 1]),
        19 => {
            // high bits, lines that fall, half a header, an entry cut off, columns that do not rise
            const NO_BANDS: [&[u8]; 5] =
                [&[0x10, 0, 0, 0], &[0, 2, 0, 1], &[0, 0], &[0, 0, 0x10, 0, 0, 0, 0, 0, 0], &[0, 0, 0x20, 0, 0, 1, 0, 0, 0, 0, 0, 1, 0, 0, 0, 0]];
            let payload = *r.pick(&NO_BANDS);
            change(out, payload);
        }
        20 => out.push(r.within(0x08, 0xFE) as u8),
        21 if r.once_in(2) => area(out, 1, 0, 0, 0),
        21 => area(out, 0, 0, 1, 0),
        _ => {}
    }
}

// A unit whose bands are in that form. But for its bands it is refused with that number, or sound where the number is 0.
pub fn formed(r: &mut Random, form: &Form, entries: (usize, usize), number: u8) -> Vec<u8> {
    let (width, height) = (r.within(1, 12), r.within(1, 8));
    let shown = Area { x: *r.pick(&[0, 1, 7, 300, 4096 - width]), y: *r.pick(&[0, 1, 9, 400, 4096 - height]), width, height };
    let mut bytes = vec![0; 4];
    bytes.extend(field::rows(r, width, height.div_ceil(2)));
    let bottom = bytes.len();
    bytes.extend(field::rows(r, width, height / 2));
    let control = bytes.len();
    // starts and stops that its blocks may have
    let commands: &[u8] = *r.pick(&[&[][..], &[0, 1], &[2], &[2], &[0, 1, 2], &[0, 1, 2]]);
    let early = r.once_in(8);
    let (mut offset, mut before) = (0, None);
    for (i, changes) in form.blocks.iter().enumerate() {
        let last = i + 1 == form.blocks.len();
        if form.overlap && i > 0 {
            delay_within(r, commands, &mut bytes);
        } else {
            put(&mut bytes, delay(r));
        }
        let start = bytes.len() - 2;
        if let Some(before) = before.replace(start) {
            set_word(&mut bytes, before + 2, start);
        }
        // the last block names itself
        put(&mut bytes, start);
        if i == 0 && early && number < 21 {
            wrong(r, number, &mut bytes);
        }
        for &n in changes {
            let mut payload = about(r, n, entries, &shown);
            if r.once_in(2) {
                payload.extend([0x0F, 0xFF, 0xFF, 0xFF]);
                if r.once_in(4) {
                    // a further header, which is not read
                    payload.extend([0, 0, 0, 0]);
                }
            }
            change(&mut bytes, &payload);
        }
        if last {
            bytes.extend([0x03, r.byte(), r.byte(), 0x04, r.byte(), r.byte()]);
            area(&mut bytes, shown.x, shown.x + width - 1, shown.y, shown.y + height - 1);
            offset = bytes.len() + 1;
            bytes.push(0x06);
            put(&mut bytes, if number == 26 { control } else { 4 });
            put(&mut bytes, bottom);
        }
        for _ in 0..if commands.is_empty() { 0 } else { r.within(1, 2) } {
            bytes.push(*r.pick(commands));
        }
        if last && (!early || number >= 21) {
            wrong(r, number, &mut bytes);
        }
        if number == 17 && last {
            const CUT: [&[u8]; 7] = [&[0x03, 1], &[0x04], &[0x05, 1, 2, 3, 4, 5], &[0x06, 0, 4, 0], &[0x07], &[0x07, 0], &[0x07, 0, 9, 1]];
            bytes.extend(*r.pick(&CUT));
        } else if last || !form.overlap {
            bytes.push(0xFF);
        }
    }
    if let Some(before) = before
        && number != 17
        && r.once_in(3)
    {
        let start = bytes.len();
        set_word(&mut bytes, before + 2, start);
        put(&mut bytes, delay(r));
        put(&mut bytes, start);
        bytes.extend(commands.last());
        bytes.push(0xFF);
    }
    let length = bytes.len();
    set_word(&mut bytes, 0, length);
    set_word(&mut bytes, 2, control);
    if number == 25 {
        set_word(&mut bytes, offset, length + r.below(3));
    }
    bytes
}

pub fn unit(r: &mut Random, number: u8) -> Vec<u8> {
    let n = count(r);
    let (form, entries) = (form(r, n), entries(r));
    formed(r, &form, entries, number)
}

// The same units in every run: those many bands with no entry, with one and with 15, in one change, in two, in two blocks, in a change for each
// band, and in one change that two blocks read.
pub fn fixed(counts: impl Iterator<Item = usize>, each: &mut dyn FnMut(Vec<u8>)) {
    for n in counts {
        let half = n / 2;
        let forms = [
            Form { blocks: vec![vec![n]], overlap: false },
            Form { blocks: vec![vec![half, n - half]], overlap: false },
            Form { blocks: vec![vec![half], vec![n - half]], overlap: false },
            Form { blocks: vec![vec![1; n]], overlap: false },
            Form { blocks: vec![vec![n % 2], vec![half]], overlap: true },
        ];
        for (i, form) in forms.iter().enumerate() {
            for entries in [0, 1, 15] {
                let mut r = Random::of(i as u64, "crowd", (100 * n + entries) as u64);
                for number in [0, 17, 18, 19, 20, 21, 25, 26] {
                    each(formed(&mut r, form, (entries, entries), number));
                }
            }
        }
    }
}
