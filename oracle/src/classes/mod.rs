// The classes. A further one is a module here with a `Class`, and a line in `all`; `crowd` and `positions` draw for several of them.
pub mod bands;
pub mod canvas;
pub mod control;
pub mod crowd;
pub mod field;
pub mod idx;
pub mod packets;
pub mod pes;
pub mod positions;
pub mod unit;
pub mod written;

use crate::class::Class;

pub fn all() -> Vec<Class> {
    vec![pes::CLASS, packets::CLASS, bands::CLASS, control::CLASS, field::CLASS, unit::CLASS, written::CLASS, idx::CLASS, idx::CUE, canvas::CLASS]
}
