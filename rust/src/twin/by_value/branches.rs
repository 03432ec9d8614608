// Written by `twin_source` from crates/branches/src/lib.rt.
// A branch of the search over the blocks: what is decided in it, one more block decided, and whether it is dropped, by loss at fixed hourly prices. The tables
// hold, for each hour, the hour's unit prices and gaps at each place; a place is what the taken blocks sell and the left-out blocks would buy in the hour.
// Assumes nothing.

use crate::twin::by_value::places::layout::HOURS;

pub mod judge; // whether a branch is dropped
pub mod next; // one more block decided

// What is decided in a branch: its set, what that loses, what its left-out blocks come to by their ranks, and the hours' places.
#[derive(Clone, Copy)]
pub struct Node {
    pub set: u32,
    pub loss: u64,
    pub tie: u64,
    pub places: [u32; HOURS],
}
