// Times the original and the port on the same inputs, in turn, in one run. A ratio above 1 says that the port is the faster one.
use oracle::classes::bands::header;
use oracle::classes::unit::{area, change, put, set_word};
use oracle::original;
use oracle::oxideav_core;
use oracle::port;
use oracle::titles::{Title, folder, stop, titles};
use oracle::walk::{stream_at, walk};
use std::hint::black_box;

const ROUNDS: usize = 31;
const LEAST: f64 = 0.01;

#[repr(C)]
struct Timespec {
    seconds: i64,
    nanoseconds: i64,
}

unsafe extern "C" {
    fn clock_gettime(clock: i32, time: *mut Timespec) -> i32;
}

// The processor time of this thread, so that what else runs on the machine counts less.
fn now() -> f64 {
    let mut t = Timespec { seconds: 0, nanoseconds: 0 };
    // CLOCK_THREAD_CPUTIME_ID of Linux
    assert_eq!(unsafe { clock_gettime(3, &mut t) }, 0);
    t.seconds as f64 + t.nanoseconds as f64 * 1e-9
}

struct Lent {
    starts: Vec<i64>,
    positions: Vec<u32>,
    palette: [u8; port::COLOURS],
    scratch: Vec<u8>,
    map: Vec<u8>,
    canvas: Vec<u8>,
    bands: [u16; port::BANDS],
    numbers: [usize; port::NUMBERS],
}

fn seconds(turns: usize, f: &mut dyn FnMut()) -> f64 {
    let start = now();
    for _ in 0..turns {
        f();
    }
    (now() - start) / turns as f64
}

fn median(times: &mut [f64]) -> f64 {
    times.sort_by(f64::total_cmp);
    times[times.len() / 2]
}

fn shown(t: f64) -> String {
    if t >= 1e-3 { format!("{:.2} ms", t * 1e3) } else { format!("{:.2} us", t * 1e6) }
}

// Times both in turn, as often as makes a round long enough to be measured. A word on the command line leaves out the names without it.
fn beside(name: &str, original: &mut dyn FnMut(), port: &mut dyn FnMut()) {
    if std::env::args().nth(1).is_some_and(|word| !name.contains(&word)) {
        return;
    }
    let once = seconds(1, original).max(seconds(1, port)).max(1e-9);
    let turns = (LEAST / once).ceil().max(1.0) as usize;
    let (mut theirs, mut ours, mut ratios) = (Vec::new(), Vec::new(), Vec::new());
    let rounds = if once > 0.1 { 5 } else { ROUNDS };
    for _ in 0..rounds {
        let a = seconds(turns, original);
        let b = seconds(turns, port);
        theirs.push(a);
        ours.push(b);
        ratios.push(a / b);
    }
    let ratio = median(&mut ratios);
    let quarter = rounds / 4;
    println!(
        "{name}: original {}, port {}, ratio {ratio:.2} (half of the rounds {:.2} to {:.2}; least {:.2}, most {:.2})",
        shown(median(&mut theirs)),
        shown(median(&mut ours)),
        ratios[quarter],
        ratios[rounds - 1 - quarter],
        ratios[0],
        ratios[rounds - 1]
    );
}

// All units, to record, map and bands. The original makes its map anew, cleared, and its bands; the port's are lent, and the part of the map
// that a unit needs is cleared before each call, though the port does not ask for that.
fn decode(name: &str, units: &[Vec<u8>], lent: &mut Lent) {
    let needs: Vec<usize> = units.iter().map(|u| original::parse_and_decode_spu(u).map_or(0, |d| d.1.len())).collect();
    beside(
        name,
        &mut || {
            for unit in units {
                black_box(original::parse_and_decode_spu(black_box(unit)).is_ok());
            }
        },
        &mut || {
            for (unit, &need) in units.iter().zip(&needs) {
                lent.map[..need].fill(0);
                let refusal = port::unit(black_box(unit), &mut lent.map, &mut lent.bands, &mut lent.numbers);
                assert_eq!(refusal, 0);
            }
        },
    );
}

// The stream of a title, which must be the only one on the walks from its cues: the original joins all.
fn stream_of(title: &Title) -> usize {
    let stream = stream_at(&title.file, title.positions[0]);
    assert!(title.positions.iter().all(|&p| walk(&title.file, p, stream).others.is_empty()));
    stream
}

fn extract(name: &str, title: &Title, lent: &mut Lent) {
    let (file, positions, stream) = (&title.file, &title.positions, stream_of(title));
    beside(
        name,
        &mut || {
            for &p in positions {
                black_box(original::extract_spu(black_box(&file[p..])).map(|u| u.len()));
            }
        },
        &mut || {
            for &p in positions {
                let (mut length, mut joined) = (0, 0);
                let refusal = port::extract_spu(black_box(file), p, stream, &mut lent.scratch, &mut length, &mut joined);
                assert_eq!(refusal, 0);
                black_box(length);
            }
        },
    );
}

// The whole text with both cue buffers lent, and one cue of it, its last but one.
fn index(title: &Title, lent: &mut Lent) {
    let text = title.text.as_str();
    let cues = title.positions.len();
    let mut original = || {
        black_box(original::parse_idx(black_box(text)).is_ok());
    };
    let mut numbers = [0; port::INDEX_NUMBERS];
    beside(&format!("{}, the index text of {cues} cues", title.name), &mut original, &mut || {
        let refusal = port::parse_idx(black_box(text.as_bytes()), &mut lent.starts, &mut lent.positions, &mut lent.palette, &mut numbers);
        assert_eq!((refusal, numbers[port::CUES]), (0, cues));
    });
    let (mut start, mut numbers) = (0, [0; port::CUE_NUMBERS]);
    beside(&format!("{}, one cue of the index text", title.name), &mut original, &mut || {
        assert_eq!(port::pick_cue(black_box(text.as_bytes()), cues - 2, &mut start, &mut lent.palette, &mut numbers), 0);
        black_box((start, numbers));
    });
}

// The decoder as the original makes it for a title.
fn decoder(idx: &original::VobSubIdx) -> Box<dyn oxideav_core::Decoder> {
    let mut params = oxideav_core::CodecParameters::video(oxideav_core::CodecId::new(oracle::VOBSUB_CODEC_ID));
    params.extradata = idx.palette_rgb.concat();
    original::make_decoder(&params).expect("a decoder")
}

// A cue's packet as build_packets makes it, and its frame.
fn painted(idx: &original::VobSubIdx, file: &[u8]) -> usize {
    let packet = original::build_packets(idx, file).pop_front().expect("a packet");
    let mut decoder = decoder(idx);
    decoder.send_packet(&packet).expect("a frame");
    let Ok(oxideav_core::Frame::Video(frame)) = decoder.receive_frame() else { panic!("no frame") };
    frame.planes[0].data.len()
}

// One call for each cue, to its canvas, with the whole index text, and with a text of that cue alone: what comes after the index text, since
// painting has no entry of its own. The original reads the text for each cue too, and makes the packet of that cue (with the start of the
// next, for its duration, but no packet of it); in the second part it gets the index and the palette as they are. Its canvas is made anew,
// cleared; the port's buffers are lent, and those parts of map and canvas that a cue needs are cleared before each call.
fn cues(title: &Title, lent: &mut Lent) {
    let (text, file, count, stream) = (title.text.as_str(), &title.file[..], title.positions.len(), stream_of(title));
    let whole = original::parse_idx(text).expect("an index");
    let one = |cue: usize| whole.clone().with_cues(vec![whole.cues[cue]]);
    let alone: Vec<original::VobSubIdx> = (0..count).map(one).collect();
    let needs: Vec<usize> = alone.iter().map(|idx| painted(idx, file)).collect();
    let palette: String = text.lines().filter(|l| l.starts_with("size:") || l.starts_with("palette:")).map(|l| format!("{l}\n")).collect();
    let stamps = text.lines().filter(|l| l.starts_with("timestamp:"));
    let texts: Vec<String> = stamps.map(|l| format!("{palette}{l}\n")).collect();
    assert_eq!(texts.len(), count);
    let mut ask = |text: &[u8], cue: usize, need: usize| {
        lent.map[..need / 4].fill(0);
        lent.canvas[..need].fill(0);
        let (mut times, mut numbers) = ([0; port::TIMES], [0; port::SHOWN_NUMBERS]);
        let buffers = port::Lent { scratch: &mut lent.scratch, pixels: &mut lent.map, canvas: &mut lent.canvas };
        let refusal = port::decode_cue(black_box(text), black_box(file), cue, stream, buffers, &mut times, &mut numbers);
        assert_eq!(refusal, 0);
        black_box((times, numbers));
    };
    beside(
        &format!("{}, one call for each of {count} cues", title.name),
        &mut || {
            for cue in 0..count {
                let idx = original::parse_idx(black_box(text)).expect("an index");
                // a cue past the file's end has no packet, so the next one adds its start alone
                let cues = idx.cues[cue..].iter().take(2).enumerate().map(|(i, c)| (c.0, if i == 0 { c.1 } else { u64::MAX })).collect();
                black_box(painted(&idx.with_cues(cues), black_box(file)));
            }
        },
        &mut || {
            for (cue, &need) in needs.iter().enumerate() {
                ask(text.as_bytes(), cue, need);
            }
        },
    );
    beside(
        &format!("{}, extract, decode and paint for each of {count} cues", title.name),
        &mut || {
            for idx in &alone {
                black_box(painted(black_box(idx), black_box(file)));
            }
        },
        &mut || {
            for (text, &need) in texts.iter().zip(&needs) {
                ask(text.as_bytes(), 0, need);
            }
        },
    );
    // what of the second part is the text's
    let (mut start, mut numbers) = (0, [0; port::CUE_NUMBERS]);
    beside(
        &format!("{}, the index texts of one cue each for {count} cues", title.name),
        &mut || {
            for text in &texts {
                black_box(original::parse_idx(black_box(text)).is_ok());
            }
        },
        &mut || {
            for text in &texts {
                assert_eq!(port::pick_cue(black_box(text.as_bytes()), 0, &mut start, &mut lent.palette, &mut numbers), 0);
            }
        },
    );
}

// The layers alone: payloads of as many bands as there may be, and one field of the codes of one nibble.
fn layers(lent: &mut Lent) {
    for (name, entries) in ENTRIES {
        let (payload, mut count) = (most_bands(entries), 0);
        beside(
            &format!("32 bands of {name}, the payload alone"),
            &mut || {
                black_box(original::parse_chg_colcon_payload(black_box(&payload)).is_ok());
            },
            &mut || assert_eq!(port::bands(black_box(&payload), &mut lent.bands, &mut count), 0),
        );
    }
    let unit = one_nibble();
    let (field, width, height) = (&unit[4..65518], 4096, 62);
    let mut theirs = vec![0; width * height];
    let (mut codes, mut clipped) = (0, 0);
    beside(
        "codes of one nibble, one field",
        &mut || {
            theirs.fill(0);
            black_box(original::decode_rle_field(black_box(field), width, height, 0, 2, &mut theirs).is_ok());
        },
        &mut || {
            lent.map[..width * height].fill(0);
            assert_eq!(port::field(black_box(field), width, height, 0, &mut lent.map, &mut codes, &mut clipped), 0);
        },
    );
}

fn headed(mut unit: Vec<u8>, control: usize) -> Vec<u8> {
    let length = unit.len();
    set_word(&mut unit, 0, length);
    set_word(&mut unit, 2, control);
    unit
}

// Blocks of four bytes, each the commands `01` and `03` of all blocks before it.
fn overlapping(length: usize) -> Vec<u8> {
    let mut unit = vec![0; 4];
    while unit.len() + 4 <= length {
        let next = unit.len() + 4;
        unit.extend([0x01, 0x03]);
        put(&mut unit, next);
    }
    headed(unit, 4)
}

const ENTRIES: [(&str, usize); 3] = [("no entry", 0), ("one entry", 1), ("15 entries", 15)];

// A payload of 32 bands of that many entries.
fn most_bands(entries: usize) -> Vec<u8> {
    let mut payload = Vec::new();
    for line in 0..32 {
        header(&mut payload, line, line, entries);
        for i in 0..entries {
            put(&mut payload, i);
            payload.extend([0x01, 0x23, 0x0F, 0xFF]);
        }
    }
    payload
}

// A unit of one pixel and a colour change with that payload.
fn banded(payload: &[u8]) -> Vec<u8> {
    let mut unit = vec![0, 0, 0, 0, 0, 0, 0, 4];
    change(&mut unit, payload);
    headed(unit, 4)
}

// Codes of one nibble and one pixel, as many as a unit holds; both fields read the same bytes.
fn one_nibble() -> Vec<u8> {
    let mut unit = vec![0x55; 65535 - 17];
    let control = unit.len();
    put(&mut unit, 0);
    put(&mut unit, control);
    area(&mut unit, 0, 4095, 0, 61);
    unit.push(0x06);
    put(&mut unit, 4);
    put(&mut unit, 4);
    unit.push(0xFF);
    headed(unit, control)
}

fn main() {
    let mut lent = Lent { starts: vec![0; 2000], positions: vec![0; 2000], palette: [0; port::COLOURS], scratch: vec![0; 65536], map: vec![0; 1 << 24], canvas: vec![0; 1 << 22], bands: [0; port::BANDS], numbers: [0; port::NUMBERS] };
    for title in titles().iter().filter(|t| t.name.starts_with("bench")) {
        let units: Option<Vec<Vec<u8>>> = title.positions.iter().map(|&p| original::extract_spu(title.file.get(p..)?)).collect();
        let Some(units) = units.filter(|units| !units.is_empty()) else { stop(&folder().join(&title.name), "there is no cue, or one without a unit") };
        index(title, &mut lent);
        extract(&format!("{}, {} units from packets", title.name, units.len()), title, &mut lent);
        decode(&format!("{}, {} units to record, map and bands", title.name, units.len()), &units, &mut lent);
        cues(title, &mut lent);
    }
    decode("blocks that overlap, 8,000 bytes", &[overlapping(8000)], &mut lent);
    decode("blocks that overlap, 65,532 bytes", &[overlapping(65535)], &mut lent);
    for (name, entries) in ENTRIES {
        decode(&format!("32 bands of {name}"), &[banded(&most_bands(entries))], &mut lent);
    }
    decode("codes of one nibble", &[one_nibble()], &mut lent);
    layers(&mut lent);
}
