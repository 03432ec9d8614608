// Written by `twin_source` from crates/places/src/limits.rt.
// The limits of the blocks: the sum of prices over a block's hours, and whether the blocks of a set keep their limits.

use crate::twin::by_value::places::layout::{HOURS, LIMIT, RUNS, SIDE};

// The sum of prices over the hours of a block.
pub fn price_sum(prices: &[u32], hours: u32) -> u32
{
    let mut sum: u32 = 0;
    let mut rest = hours;
    for h in 0..HOURS {
        sum += (rest % 2) * prices[h];
        rest = rest / 2;
    }
    sum
}

// Whether a block keeps its limit: the sum of the low prices over its hours is at most the limit for a buy, that of the high prices at least the limit
// for a sell.
pub fn keeps_limit(side: u32, hours: u32, limit: u32, high: &[u32], low: &[u32]) -> bool
{
    if side == 0 {
        price_sum(low, hours) <= limit
    } else {
        limit <= price_sum(high, hours)
    }
}

// Whether each of the first count blocks that the set holds keeps its limit: a buy at the low prices, a sell at the high ones.
pub fn keeps_limits(blocks: &[u32], count: usize, set: u32, high: &[u32], low: &[u32]) -> bool
{
    for i in (0..count).rev() {
        let chosen = (set >> (i as u32)) % 2;
        if chosen == 1 {
            if !keeps_limit(
                blocks[SIDE + i],
                blocks[RUNS + i],
                blocks[LIMIT + i],
                high,
                low,
            ) {
                return false;
            }
        }
    }
    true
}
