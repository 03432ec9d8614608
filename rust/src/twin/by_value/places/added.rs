// Written by `twin_source` from crates/places/src/added.rt.
// What a block adds to the hours' places: its quantity in its hours, or its row.

use crate::twin::by_value::places::layout::{BLOCK_ROWS, HOURS};

// The places with a quantity more in each hour of a block.
pub fn moved(places: [u32; HOURS], hours: u32, quantity: u32) -> [u32; HOURS]
{
    let mut r = places;
    let mut rest = hours;
    for h in 0..HOURS {
        r[h] += (rest % 2) * quantity;
        rest = rest / 2;
    }
    r
}

// The places with what block i trades in each hour more, where the test passes. Not one function with `moved`, which reads bits of hours and no row.
pub fn moved_where(test: bool, places: [u32; HOURS], blocks: &[u32], i: usize) -> [u32; HOURS]
{
    let times = u32::from(test);
    let row = BLOCK_ROWS + HOURS * i;
    let mut r = places;
    for h in 0..HOURS {
        r[h] += times * blocks[row + h];
    }
    r
}
