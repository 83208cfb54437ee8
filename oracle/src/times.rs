// Show and hide time of a cue (FORMAT 6.7), which the original does not give. They are worked out here, beside both sides,
// from its own start and delays and from what its counting copy says stood. Where one leaves signed 64 bits the original
// paints all the same, and 33 is asked for instead.
use crate::Counts;
use crate::class::Outcome;
use crate::side::{Delays, Times};

pub const LONG: &str = "33: a show or hide time leaves signed 64 bits; the original paints";

// What accepted units must meet.
pub const NEITHER: &str = "accepted, with neither start nor stop";
pub const STARTED: &str = "accepted, with a start and no stop";
pub const STOPPED: &str = "accepted, with a stop and no start";
pub const BOTH: &str = "accepted, with a start and a stop";
pub const STOOD: [&str; 4] = [NEITHER, STARTED, STOPPED, BOTH];

// What accepted cues must meet besides.
pub const AFTER: &str = "accepted, hidden after it is shown";
pub const AT_ONCE: &str = "accepted, hidden as it is shown";
pub const BEFORE: &str = "accepted, hidden before it is shown";
pub const NO_DELAY: &str = "accepted, with a first start of delay 0";
pub const LAST: &str = "accepted, with a time, and the greatest delay would leave signed 64 bits";
pub const FIRST: &str = "accepted, with a time, and a start below -2^62";
pub const UNTIMED: &str = "accepted, with a stop alone whose delay would leave signed 64 bits";

// What cues with 33 must meet, and what they are counted for besides.
pub const LONG_BARE: &str = "33, with a bare unit";
pub const LONG_JOINED: &str = "33, with a unit joined in scratch";
const LONG_SHOW: &str = "33, for the show time alone";
const LONG_HIDE: &str = "33, for the hide time alone";
const LONG_BOTH: &str = "33, for both times";

const GREATEST: usize = 65535;

// A tick is 1024/90000 of a second; the delay alone is rounded down.
pub fn micros(ticks: usize) -> i128 {
    ticks as i128 * 102_400 / 9
}

fn show(cue: Delays) -> Option<i128> {
    cue.start.map(|ticks| cue.from as i128 + micros(ticks))
}

// What is never shown is not hidden either.
fn hide(cue: Delays) -> Option<i128> {
    cue.start.and(cue.stop).map(|ticks| cue.from as i128 + micros(ticks))
}

fn leaves(time: i128) -> bool {
    i64::try_from(time).is_err()
}

pub const TIMES: Times = Times { show, hide, leaves };

// The last start of a text, in milliseconds, from which the time with that delay stays: a text has no finer starts.
pub fn last_start(ticks: usize) -> i64 {
    ((i64::MAX as i128 - micros(ticks)) / 1000) as i64
}

// What an accepted unit is counted for by its commands.
pub fn stood(counts: Counts) -> &'static str {
    STOOD[counts.started as usize + 2 * counts.stopped as usize]
}

// What a painted cue is counted for, accepted by both or refused with 33.
pub fn met(o: &Outcome, cue: Delays, joined: bool) -> Vec<&'static str> {
    let [show, hide] = TIMES.of(cue);
    let mut met = Vec::new();
    let mut meets = |holds: bool, what| met.extend(holds.then_some(what));
    if o.long.is_some() {
        let [a, b] = [show, hide].map(|time| time.is_some_and(leaves));
        meets(!joined, LONG_BARE);
        meets(joined, LONG_JOINED);
        meets(a && b, LONG_BOTH);
        meets(a && !b, LONG_SHOW);
        meets(!a && b, LONG_HIDE);
    } else if o.both {
        let would = leaves(cue.from as i128 + micros(GREATEST));
        meets(hide.is_some() && hide > show, AFTER);
        meets(hide.is_some() && hide == show, AT_ONCE);
        meets(hide.is_some() && hide < show, BEFORE);
        meets(cue.start == Some(0), NO_DELAY);
        meets(show.is_some() && would, LAST);
        meets(show.is_some() && cue.from < -(1 << 62), FIRST);
        meets(show.is_none() && cue.stop.is_some_and(|ticks| leaves(cue.from as i128 + micros(ticks))), UNTIMED);
    }
    met
}
