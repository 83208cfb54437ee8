// The limit of 32 bands, which the original does not have. Where 34 is asked for is worked out here, beside both sides, from
// the number of bands that its counting copy counts and from what it says itself; anywhere else 34 is a difference.
use crate::Counts;
use crate::class::Outcome;
use crate::port::BANDS;
use crate::side::Limit;

pub const MANY: &str = "34: more than 32 bands; the original accepts, or says 25 or 26";

// The whole chain is read first, so that what is wrong with it comes before 34.
fn asked(bands: usize, refusal: u8) -> bool {
    bands > 32 && matches!(refusal, 0 | 25 | 26)
}

pub const LIMIT: Limit = Limit { asked };

// What generated requests must meet: 31 to 34 bands,
pub const ONE: [&str; 4] = [
    "accepted, with 31 bands in one change",
    "accepted, with 32 bands in one change",
    "34, with 33 bands in one change",
    "34, with 34 bands in one change",
];
pub const SEVERAL: [&str; 4] = [
    "accepted, with 31 bands in several changes",
    "accepted, with 32 bands in several changes",
    "34, with 33 bands in several changes",
    "34, with 34 bands in several changes",
];
pub const OVERLAP: [&str; 4] = [
    "accepted, with 31 bands in blocks that overlap",
    "accepted, with 32 bands in blocks that overlap",
    "34, with 33 bands in blocks that overlap",
    "34, with 34 bands in blocks that overlap",
];
pub const NO_ENTRY: [&str; 4] = [
    "accepted, with 31 bands and no entry",
    "accepted, with 32 bands and no entry",
    "34, with 33 bands and no entry",
    "34, with 34 bands and no entry",
];
pub const ENTRIES: [&str; 4] = [
    "accepted, with 31 bands and entries",
    "accepted, with 32 bands and entries",
    "34, with 33 bands and entries",
    "34, with 34 bands and entries",
];
// the words of an array all used, and more of them,
pub const WORDS: [&str; 2] = ["accepted, with 32 bands in 1,536 words", "34, with more than 1,536 words"];
// what is refused before 34 though the bands are too many,
pub const BEFORE: [&str; 5] = [
    "17, with more than 32 bands before it",
    "18, with more than 32 bands before it",
    "19, with more than 32 bands before it",
    "20, with more than 32 bands before it",
    "21, with more than 32 bands",
];
pub const NO_SCRATCH: &str = "14, with more than 32 bands";
// and what would be refused after it.
pub const LATE: [&str; 2] = ["34, where the original says 25", "34, where the original says 26"];
pub const NO_MAP: &str = "34, with a map too short";
pub const NO_CANVAS: &str = "34, with a canvas too short";
pub const LEAVES: &str = "34, with a time that leaves signed 64 bits";
pub const BARE: &str = "34, with a bare unit";
pub const JOINED: &str = "34, with a unit joined in scratch";

// What a request is counted for by its bands, where the original gives that refusal; 0 where it accepts.
pub fn met(o: &Outcome, counts: Counts, refusal: u8) -> Vec<&'static str> {
    let mut met = Vec::new();
    let many = o.rule == Some(MANY);
    if o.both || many {
        if let near @ 31..=34 = counts.bands {
            let form = match counts.changes {
                0 => None,
                _ if counts.again => Some(OVERLAP),
                1 => Some(ONE),
                _ => Some(SEVERAL),
            };
            met.extend(form.map(|form| form[near - 31]));
            met.push(if counts.entries > 0 { ENTRIES } else { NO_ENTRY }[near - 31]);
        }
        met.extend((!many && counts.words() == BANDS).then_some(WORDS[0]));
        met.extend((many && counts.words() > BANDS).then_some(WORDS[1]));
    }
    match refusal {
        17..=21 if counts.bands > 32 => met.push(BEFORE[refusal as usize - 17]),
        25 | 26 if many => met.push(LATE[refusal as usize - 25]),
        _ => {}
    }
    met
}
