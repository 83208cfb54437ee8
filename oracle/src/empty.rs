// The text of no bytes: no cue to the original, one cue here (FORMAT 1.13). The original is not asked about it; what the
// text means is worked out here, beside both sides.
use crate::class::Outcome;
use crate::side::{Empty, Index};

pub const NO_BYTES: &str = "1.13: a text of no bytes; one cue at time 0 and position 0, in greys, is asked for";

// What generated requests must meet.
pub const GIVEN: &str = "a text of no bytes, accepted";
pub const REFUSED: &str = "a text of no bytes, refused";
pub const NEAR: &str = "a text of blanks alone, of `#` or of a byte 00; the original is asked";

pub const BLANKS: [u8; 6] = *b" \t\n\x0b\x0c\r";

fn no_bytes(text: &[u8]) -> bool {
    text.is_empty()
}

// The cue needs a place in both buffers.
fn has_room(starts: usize, positions: usize) -> bool {
    starts > 0 && positions > 0
}

// Red, green and blue of entry i are 17 times i, and no line gives them.
fn index() -> Index {
    let palette = (0..16).flat_map(|i| [17 * i; 3]).collect();
    Index { size: (0, 0), palette, has_palette: false, cues: vec![(0, 0)] }
}

pub const EMPTY: Empty = Empty { no_bytes, has_room, index };

// What a request is counted for by its text.
pub fn met(o: &Outcome, text: &[u8]) -> Option<&'static str> {
    match text {
        _ if o.empty.is_some() => Some(if o.refusal == 0 { GIVEN } else { REFUSED }),
        [b'#'] | [0] => Some(NEAR),
        _ => text.iter().all(|b| BLANKS.contains(b)).then_some(NEAR),
    }
}
