// Written by `twin_source` from crates/shift/src/sought.rt.
// The set whose shift is looked for.

use crate::twin::by_value::places::layout::HOURS;
use crate::twin::by_value::places::tables::Tables;

// A set whose shift is looked for: the tables, its blocks as bits, its places, and how often hour 3 counts.
#[derive(Clone, Copy)]
pub struct Sought<'a> {
    pub tables: &'a Tables<'a>,
    pub set: u32,
    pub places: [u32; HOURS],
    pub often: u32,
}
