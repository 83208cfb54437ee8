// The original beside the port: what both are asked, and how their answers are compared.
pub mod classes;
pub mod class;
pub mod empty;
pub mod limit;
pub mod oxideav_core;
pub mod port;
pub mod random;
pub mod side;
pub mod stored;
pub mod times;
pub mod titles;
pub mod walk;

use std::cell::Cell;

include!(concat!(env!("OUT_DIR"), "/variants.rs"));

pub const VOBSUB_CODEC_ID: &str = "vobsub";

// What the counting copy of the original counts, and says (see build.rs).
#[derive(Clone, Copy)]
pub struct Counts {
    // Whether a start stood in a block, of either kind, and whether a stop did.
    pub started: bool,
    pub stopped: bool,
    // Codes read, fills and clipped ones included.
    pub codes: usize,
    // Those whose run is longer than what was left of their row.
    pub clipped: usize,
    // Those whose run is exactly as long.
    pub exact: usize,
    // Fills whose number, divided by 4, is above what was left.
    pub long_fills: usize,
    // Bands of all payloads read; those of a payload that is read twice count twice.
    pub bands: usize,
    // Their entries.
    pub entries: usize,
    // Changes with a band, and whether one was read at a place that another had passed, as blocks that overlap do.
    pub changes: usize,
    pub again: bool,
    furthest: usize,
}

pub const CLIPPED: &str = "accepted, with a clipped code";
pub const EXACT: &str = "accepted, with a code exactly as long as what is left of its row";
pub const LONG_FILL: &str = "accepted, with a fill whose v/4 is above what is left of its row";

impl Counts {
    const NONE: Counts = Counts {
        started: false,
        stopped: false,
        codes: 0,
        clipped: 0,
        exact: 0,
        long_fills: 0,
        bands: 0,
        entries: 0,
        changes: 0,
        again: false,
        furthest: 0,
    };

    // A change is read: its place, and how many bands it has.
    pub fn change(&mut self, place: usize, bands: usize) {
        if bands > 0 {
            self.changes += 1;
            self.again |= place <= self.furthest;
            self.furthest = self.furthest.max(place);
        }
    }

    // The words that the bands take.
    pub fn words(self) -> usize {
        3 * (self.bands + self.entries)
    }

    // What an accepted request with these counts is counted for.
    pub fn met(self) -> impl Iterator<Item = &'static str> {
        let counts = [(self.clipped, CLIPPED), (self.exact, EXACT), (self.long_fills, LONG_FILL)];
        counts.into_iter().filter(|c| c.0 > 0).map(|c| c.1)
    }
}

thread_local! {
    static COUNTS: Cell<Counts> = const { Cell::new(Counts::NONE) };
}

// Called by the counting copy.
pub fn count(f: impl FnOnce(&mut Counts)) {
    let mut counts = COUNTS.get();
    f(&mut counts);
    COUNTS.set(counts);
}

// What the counting copy counts in f.
pub fn counted<T>(f: impl FnOnce() -> T) -> Counts {
    COUNTS.set(Counts::NONE);
    f();
    COUNTS.get()
}
