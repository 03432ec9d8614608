// Written by `twin_source` from crates/roots/src/held.rt.
// The prices of hours without steps: where prices can give way they are kept between the least and the greatest price of the blocks, since what such an hour
// pays by itself, 1, 150000 or 300000, lies far from all of them. Any prices are right.

use crate::twin::by_value::fields::MAX_PRICE;
use crate::twin::by_value::orders::Blocks;
use crate::twin::by_value::places::cells::{highs_at, lows_at};
use crate::twin::by_value::places::layout::HOURS;
use crate::twin::by_value::places::numbers::choose;

// The least and the greatest price of the blocks.
// Not one type with Bounds: what Bounds holds by its ghost field is said of arrays, this of numbers.
#[derive(Clone, Copy)]
struct Ends {
    least: u32,
    most: u32,
}

// The ends of the blocks' prices.
fn ends_of(blocks: &Blocks) -> Ends
{
    let mut least = MAX_PRICE;
    let mut most = 0;
    for i in 0..blocks.count {
        least = least.min(blocks.prices[i]);
        most = most.max(blocks.prices[i]);
    }
    Ends { least, most }
}

// Between which prices those of each hour are kept.
#[derive(Clone, Copy)]
pub struct Bounds {
    pub least: [u32; HOURS],
    pub most: [u32; HOURS],
}

// The bounds of each hour at the places of the empty set: the ends of the blocks' prices where prices can give way and every price clears the hour, else all prices.
pub fn bounds_of(shifts: bool, unit_prices: &[u32], off: [u32; HOURS], blocks: &Blocks) -> Bounds
{
    let ends = ends_of(blocks);
    let highs = highs_at(unit_prices, off);
    let lows = lows_at(unit_prices, off);
    let mut least = [0; HOURS];
    let mut most = [0; HOURS];
    for h in 0..HOURS {
        let empty = shifts & (highs[h] == MAX_PRICE) & (lows[h] == 1);
        least[h] = choose(empty, ends.least, 0);
        most[h] = choose(empty, ends.most, MAX_PRICE);
    }
    Bounds { least, most }
}

// Prices kept between bounds.
pub fn held(prices: [u32; HOURS], bounds: &Bounds) -> [u32; HOURS]
{
    let mut r = [0; HOURS];
    for h in 0..HOURS {
        r[h] = prices[h].min(bounds.most[h]).max(bounds.least[h]);
    }
    r
}
