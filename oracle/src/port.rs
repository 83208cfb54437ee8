// The static library's functions (include/vobsub.h), on slices.
pub const NUMBERS: usize = 17;
pub const STARTED: usize = 6;
pub const START: usize = 7;
pub const STOPPED: usize = 8;
pub const STOP: usize = 9;
pub const BAND_WORDS: usize = 14;
pub const CODES: usize = 15;
pub const CLIPPED: usize = 16;

// Words of the bands of a unit or of a payload.
pub const BANDS: usize = 1536;

// Places of the numbers of an index text, and of those of a cue.
pub const INDEX_NUMBERS: usize = 4;
pub const WIDTH: usize = 0;
pub const HEIGHT: usize = 1;
pub const COLOURED: usize = 2;
pub const CUES: usize = 3;
pub const CUE_NUMBERS: usize = 4;
pub const POSITION: usize = 0;
pub const LASTS: usize = 1;
pub const DURATION: usize = 2;
pub const CUE_COLOURED: usize = 3;
pub const COLOURS: usize = 48;

// How many times of a painted cue there are: start, show time, hide time.
pub const TIMES: usize = 3;
// How many numbers of it: whether it has a duration, the duration, both delays, x1, y1, width, height, codes, clipped
// codes, whether there is a start, a stop, a hide time.
pub const SHOWN_NUMBERS: usize = 13;

unsafe extern "C" {
    fn vobsub_parse_pes_body(pes: *const u8, pes_len: usize, body: *mut usize) -> u8;
    fn vobsub_extract_spu(file: *const u8, file_len: usize, position: usize, stream: usize, scratch: *mut u8, scratch_len: usize, length: *mut usize, joined: *mut u8) -> u8;
    fn vobsub_parse_chg_colcon_payload(payload: *const u8, payload_len: usize, bands: *mut u16, count: *mut usize) -> u8;
    fn vobsub_decode_rle_field(field: *const u8, field_len: usize, width: usize, height: usize, start_row: usize, pixels: *mut u8, pixels_len: usize, codes: *mut usize, clipped: *mut usize) -> u8;
    fn vobsub_parse_and_decode_spu(unit: *const u8, unit_len: usize, pixels: *mut u8, pixels_len: usize, bands: *mut u16, numbers: *mut usize) -> u8;
    fn vobsub_parse_idx(text: *const u8, text_len: usize, starts: *mut i64, starts_len: usize, positions: *mut u32, positions_len: usize, palette: *mut u8, numbers: *mut usize) -> u8;
    fn vobsub_pick_cue(text: *const u8, text_len: usize, cue: usize, start: *mut i64, palette: *mut u8, numbers: *mut u64) -> u8;
    fn vobsub_decode_cue(
        text: *const u8,
        text_len: usize,
        file: *const u8,
        file_len: usize,
        cue: usize,
        stream: usize,
        scratch: *mut u8,
        scratch_len: usize,
        pixels: *mut u8,
        pixels_len: usize,
        canvas: *mut u8,
        canvas_len: usize,
        times: *mut i64,
        numbers: *mut u64,
    ) -> u8;
    fn vobsub_build_demo_spu(width: usize, height: usize, indices: *const u8, indices_len: usize, out: *mut u8, out_len: usize, length: *mut usize) -> u8;
}

pub fn pes_body(pes: &[u8], body: &mut usize) -> u8 {
    unsafe { vobsub_parse_pes_body(pes.as_ptr(), pes.len(), body) }
}

pub fn extract_spu(file: &[u8], position: usize, stream: usize, scratch: &mut [u8], length: &mut usize, joined: &mut u8) -> u8 {
    unsafe { vobsub_extract_spu(file.as_ptr(), file.len(), position, stream, scratch.as_mut_ptr(), scratch.len(), length, joined) }
}

pub fn bands(payload: &[u8], bands: &mut [u16; BANDS], count: &mut usize) -> u8 {
    unsafe { vobsub_parse_chg_colcon_payload(payload.as_ptr(), payload.len(), bands.as_mut_ptr(), count) }
}

pub fn field(field: &[u8], width: usize, height: usize, start_row: usize, pixels: &mut [u8], codes: &mut usize, clipped: &mut usize) -> u8 {
    unsafe { vobsub_decode_rle_field(field.as_ptr(), field.len(), width, height, start_row, pixels.as_mut_ptr(), pixels.len(), codes, clipped) }
}

pub fn unit(unit: &[u8], pixels: &mut [u8], bands: &mut [u16; BANDS], numbers: &mut [usize; NUMBERS]) -> u8 {
    unsafe { vobsub_parse_and_decode_spu(unit.as_ptr(), unit.len(), pixels.as_mut_ptr(), pixels.len(), bands.as_mut_ptr(), numbers.as_mut_ptr()) }
}

pub fn write(width: usize, height: usize, indices: &[u8], out: &mut [u8], length: &mut usize) -> u8 {
    unsafe { vobsub_build_demo_spu(width, height, indices.as_ptr(), indices.len(), out.as_mut_ptr(), out.len(), length) }
}

pub fn parse_idx(text: &[u8], starts: &mut [i64], positions: &mut [u32], palette: &mut [u8; COLOURS], numbers: &mut [usize; INDEX_NUMBERS]) -> u8 {
    unsafe { vobsub_parse_idx(text.as_ptr(), text.len(), starts.as_mut_ptr(), starts.len(), positions.as_mut_ptr(), positions.len(), palette.as_mut_ptr(), numbers.as_mut_ptr()) }
}

pub fn pick_cue(text: &[u8], cue: usize, start: &mut i64, palette: &mut [u8; COLOURS], numbers: &mut [u64; CUE_NUMBERS]) -> u8 {
    unsafe { vobsub_pick_cue(text.as_ptr(), text.len(), cue, start, palette.as_mut_ptr(), numbers.as_mut_ptr()) }
}

// What is lent to the call from index text and file to a cue's canvas.
pub struct Lent<'a> {
    pub scratch: &'a mut [u8],
    pub pixels: &'a mut [u8],
    pub canvas: &'a mut [u8],
}

pub fn decode_cue(text: &[u8], file: &[u8], cue: usize, stream: usize, lent: Lent, times: &mut [i64; TIMES], numbers: &mut [u64; SHOWN_NUMBERS]) -> u8 {
    let Lent { scratch, pixels, canvas } = lent;
    unsafe {
        vobsub_decode_cue(
            text.as_ptr(),
            text.len(),
            file.as_ptr(),
            file.len(),
            cue,
            stream,
            scratch.as_mut_ptr(),
            scratch.len(),
            pixels.as_mut_ptr(),
            pixels.len(),
            canvas.as_mut_ptr(),
            canvas.len(),
            times.as_mut_ptr(),
            numbers.as_mut_ptr(),
        )
    }
}
