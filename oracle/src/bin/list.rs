// Makes the fixed list of answers that crates/replay replays: `list FILE`. Run again it gives the same bytes.
//
// The list: 128 bytes of text that say how it was made; then for each class in the order of `classes::all` a word with the number of its rows,
// and its rows. A row is 16 bytes and the request's bytes: which function is asked (1 pes, 2 packets, 3 bands, 4 fields, 5 units, 6 written,
// 7 idx, 8 cue, 9 canvas), the refusal, a word with the number of bytes, four words with the request's numbers (of packets the position, the stream
// and the scratch; of units the length of the map; of canvases the lengths of scratch, map and canvas, and the stream is in the bytes; of bands
// none), and four bytes with the sum over the answer.
//
// Only requests on which both sides agree (or that a rule covers) go into the list, so many for each answer; no two of 7, 8 or 9 are the same.
use oracle::CLIPPED;
use oracle::class::{BYTE, Class, NUMBER, Request, START, Sum, WORD, World};
use oracle::classes::{self, canvas};
use oracle::limit::{ENTRIES, NO_ENTRY};
use oracle::port;
use oracle::random::Random;
use oracle::side::Side;
use oracle::stored::LAST;
use oracle::times::{BOTH, STOOD};
use std::collections::{BTreeMap, BTreeSet};

const SEED: u64 = 7;
const EACH: usize = 90;
const LONGEST: usize = 240;
// of titles fewer and longer ones
const EACH_TITLE: usize = 24;
const LONGEST_TITLE: usize = 640;
// of what has 31 to 34 bands fewer still, and as long as crates/replay has room for; of titles with the greatest position as few
const EACH_NEAR: usize = 12;
const LONGEST_NEAR: usize = 4096;

// The numbers of a request as the list has them: for units and titles, how many bytes are lent.
fn numbers(class: &Class, side: &Side, q: &Request) -> [usize; 4] {
    if kind(class) == 9 {
        let [scratch, map, canvas] = canvas::rooms(side, q);
        return [scratch, map, canvas, 0];
    }
    if kind(class) == 6 {
        return [q.n[0], q.n[1], q.n[2].min(200), 0];
    }
    if kind(class) != 5 {
        return q.n;
    }
    match (side.unit)(&q.bytes) {
        Ok(d) => [lent(q.n[0], d.map.len()), 0, 0, 0],
        Err(_) => [if q.n[0] > 1 { 0 } else { 2048 }, 0, 0, 0],
    }
}

fn lent(mode: usize, need: usize) -> usize {
    match mode {
        0 => need,
        1 => need + 3,
        2 => need.saturating_sub(1),
        _ => 0,
    }
}

fn kind(class: &Class) -> u8 {
    match class.name {
        "pes" => 1,
        "packets" => 2,
        "bands" => 3,
        "fields" => 4,
        "written" => 6,
        "idx" => 7,
        "cue" => 8,
        "canvas" => 9,
        _ => 5,
    }
}

// What crates/replay does with a row: the refusal, and the sum over what the call gives and what was lent to it.
fn answer(kind: u8, bytes: &[u8], n: [usize; 4]) -> (u8, u64) {
    let mut sum = Sum::default();
    let refusal = match kind {
        1 => {
            let mut body = NUMBER;
            let refusal = port::pes_body(bytes, &mut body);
            sum.add(body);
            refusal
        }
        2 => {
            let (mut scratch, mut length, mut joined) = (vec![BYTE; n[2]], NUMBER, BYTE);
            let refusal = port::extract_spu(bytes, n[0], n[1], &mut scratch, &mut length, &mut joined);
            sum.add(length);
            sum.add(joined as usize);
            sum.all(&scratch);
            refusal
        }
        3 => {
            let (mut words, mut count) = ([WORD; port::BANDS], NUMBER);
            let refusal = port::bands(bytes, &mut words, &mut count);
            sum.add(count);
            sum.all(&words);
            refusal
        }
        4 => {
            let (mut map, mut codes, mut clipped) = (vec![BYTE; n[3]], NUMBER, NUMBER);
            let refusal = port::field(bytes, n[0], n[1], n[2], &mut map, &mut codes, &mut clipped);
            sum.add(codes);
            sum.add(clipped);
            sum.all(&map);
            refusal
        }
        6 => {
            let (mut out, mut length) = (vec![BYTE; n[2]], NUMBER);
            let refusal = port::write(n[0], n[1], bytes, &mut out, &mut length);
            sum.add(length);
            sum.all(&out);
            refusal
        }
        7 => {
            let (mut starts, mut positions, mut palette, mut numbers) = (vec![START; n[0]], vec![NUMBER as u32; n[1]], [BYTE; port::COLOURS], [NUMBER; port::INDEX_NUMBERS]);
            let refusal = port::parse_idx(bytes, &mut starts, &mut positions, &mut palette, &mut numbers);
            for v in numbers {
                sum.add(v);
            }
            sum.all(&palette);
            for v in starts {
                sum.signed(v);
            }
            sum.all(&positions);
            refusal
        }
        8 => {
            let (mut start, mut palette, mut numbers) = (START, [BYTE; port::COLOURS], [NUMBER as u64; port::CUE_NUMBERS]);
            let refusal = port::pick_cue(bytes, n[0], &mut start, &mut palette, &mut numbers);
            sum.signed(start);
            sum.all(&numbers);
            sum.all(&palette);
            refusal
        }
        9 => {
            let (mut scratch, mut map, mut painted) = (vec![BYTE; n[0]], vec![BYTE; n[1]], vec![BYTE; n[2]]);
            let (mut times, mut numbers) = ([START; port::TIMES], [NUMBER as u64; port::SHOWN_NUMBERS]);
            let (text, file, cue, stream) = canvas::parts(bytes);
            let lent = port::Lent { scratch: &mut scratch, pixels: &mut map, canvas: &mut painted };
            let refusal = port::decode_cue(text, file, cue, stream, lent, &mut times, &mut numbers);
            for v in times {
                sum.signed(v);
            }
            sum.all(&numbers);
            sum.all(&scratch);
            sum.all(&map);
            sum.all(&painted);
            refusal
        }
        _ => {
            let (mut map, mut words, mut numbers) = (vec![BYTE; n[0]], [WORD; port::BANDS], [NUMBER; port::NUMBERS]);
            let refusal = port::unit(bytes, &mut map, &mut words, &mut numbers);
            for v in numbers {
                sum.add(v);
            }
            sum.all(&map);
            sum.all(&words);
            refusal
        }
    };
    (refusal, sum.0)
}

fn rows(class: &Class, world: &World, side: &Side) -> (usize, Vec<u8>) {
    let mut out = Vec::new();
    let mut met: BTreeMap<(u8, Option<usize>, bool, bool), usize> = BTreeMap::new();
    let mut taken = BTreeSet::new();
    let (mut count, mut copied, mut clipped, mut empty, mut hidden, mut banded, mut greatest) = (0, 0, 0, 0, 0, 0, 0);
    for i in 0..60_000 {
        let q = (class.generate)(world, &mut Random::of(SEED, class.name, i));
        let n = numbers(class, side, &q);
        let room = match kind(class) {
            2 => n[2],
            4 => n[3],
            5 => n[0],
            _ => 0,
        };
        let title = kind(class) == 9;
        if title && (n[0] > LONGEST_NEAR || n[1] > 1024 || n[2] > 4096) {
            continue;
        }
        if q.bytes.len() > LONGEST_NEAR || room > 1000 && kind(class) != 5 || room > 2048 || n.iter().any(|&v| v > 65535) {
            continue;
        }
        let o = (class.compare)(side, &q);
        assert!(o.differs.is_none() && (o.panicked.is_none() || o.rule.is_some()), "{} {i} differs", class.name);
        let (refusal, sum) = answer(kind(class), &q.bytes, n);
        // a refused unit is lent so much here that it may be refused for that
        if refusal != o.refusal {
            continue;
        }
        let near = o.met.iter().any(|what| NO_ENTRY.contains(what) || ENTRIES.contains(what));
        if !near && (q.bytes.len() > if title { LONGEST_TITLE } else { LONGEST } || title && n[0] > 1024) {
            continue;
        }
        // short texts come again and again
        if kind(class) > 6 && !taken.insert((q.bytes.clone(), n)) {
            continue;
        }
        // of accepted titles as many with neither start nor stop, with either and with both, and beside them with a text of no bytes
        let stood = STOOD.iter().position(|what| title && o.met.contains(what));
        let last = title && o.met.contains(&LAST);
        let quota = match (title, refusal) {
            _ if near || last => EACH_NEAR,
            (true, _) => EACH_TITLE,
            (false, 0) => 4 * EACH,
            (false, _) => EACH,
        };
        let seen = met.entry((refusal, stood.filter(|_| !last), near, last)).or_default();
        if *seen >= quota {
            continue;
        }
        *seen += 1;
        count += 1;
        copied += o.copied.is_some() as usize;
        clipped += o.met.contains(&CLIPPED) as usize;
        empty += o.empty.is_some() as usize;
        hidden += o.met.contains(&BOTH) as usize;
        banded += near as usize;
        greatest += o.met.contains(&LAST) as usize;
        out.extend([kind(class), refusal]);
        for word in [q.bytes.len(), n[0], n[1], n[2], n[3]] {
            out.extend((word as u16).to_be_bytes());
        }
        out.extend((sum as u32).to_be_bytes());
        out.extend(&q.bytes);
    }
    let mut answers: BTreeMap<u8, usize> = BTreeMap::new();
    for ((refusal, ..), count) in met {
        *answers.entry(refusal).or_default() += count;
    }
    let met: Vec<String> = answers.iter().map(|(r, c)| format!("{r}: {c}")).collect();
    println!(
        "{}: {count} rows ({}), {copied} with other streams on the walk, {clipped} with a clipped code, {empty} with a text of no bytes",
        class.name,
        met.join(", ")
    );
    if hidden > 0 {
        println!("    {hidden} accepted with a start and a stop");
    }
    if banded > 0 {
        println!("    {banded} with 31 to 34 bands");
    }
    if greatest > 0 {
        println!("    {greatest} accepted with a position of FFFFFFFF");
    }
    (count, out)
}

fn main() {
    let Some(path) = std::env::args().nth(1) else { panic!("list FILE") };
    std::panic::set_hook(Box::new(|info| {
        if info.location().is_some_and(|l| l.file().ends_with("list.rs")) {
            eprintln!("{info}");
        }
    }));
    let (world, side) = (World::new(), oracle::original::adapter::SIDE);
    let mut out = format!("answers of the original beside the port, made by oracle/list from seed {SEED}, up to {EACH} for each refusal").into_bytes();
    assert!(out.len() < 128);
    out.resize(127, b' ');
    out.push(b'\n');
    for class in classes::all() {
        let (count, rows) = rows(&class, &world, &side);
        out.extend((count as u16).to_be_bytes());
        out.extend(rows);
    }
    println!("{} bytes", out.len());
    std::fs::write(&path, out).expect("the list");
}
