// Written by `twin_source` from crates/order/src/numbered.rt.
// Sets of places as sets of blocks by their numbers.

use crate::twin::by_value::order::Order;

// The blocks at the places of a set, by their numbers: block i is in it where its place is in the set.
pub fn by_number(set: u32, order: &Order, count: usize) -> u32
{
    let mut numbered: u32 = 0;
    for i in (0..count).rev() {
        let held = (set >> order.places[i]) % 2;
        numbered = numbered * 2 + held;
    }
    numbered
}
