// Written by `twin_source` from crates/branches/src/judge.rt.
// A branch judged: whether it is dropped, and which of its undecided blocks are out.

use crate::twin::by_value::branches::Node;
use crate::twin::by_value::places::cells::{counted_least_gaps, counted_prices, highs_at, lows_at, prices_at};
use crate::twin::by_value::places::layout::{AGAINST, CHANGE, GAIN, HOURS, LIMIT, PARENT, RUNS, SHIFTS, SIDE, TURN};
use crate::twin::by_value::places::limits::{keeps_limit, keeps_limits};
use crate::twin::by_value::places::numbers::choose;
use crate::twin::by_value::places::reach::{is_out, reach_at};
use crate::twin::by_value::places::tables::Tables;

// The set that holds block number at alone.
pub fn bit(at: u32) -> u32
{
    1u32 << at
}

// Whether the block that is named, by its number and 1, is gone from a branch whose first blocks, at of them, are decided: left out, or out; where none is
// named, by 0, it is not.
// A name stays a number, as the column of the search's list has it: an Option would be made and taken apart for each block, and says no more.
fn is_gone(name: u32, at: usize, set: u32, out: u32) -> bool
{
    if name == 0 {
        return false;
    }
    let i = (name - 1) as usize;
    if i < at {
        return (set >> (name - 1)) % 2 == 0;
    }
    is_out(out, i - at)
}

// Whether undecided block i is out: it was before, its parent is gone, or it misses its limit at the best prices within reach.
fn is_ruled_out(blocks: &[u32], i: usize, was: bool, gone: bool, high: &[u32], low: &[u32]) -> bool
{
    if was | gone {
        return true;
    }
    !keeps_limit(
        blocks[SIDE + i],
        blocks[RUNS + i],
        blocks[LIMIT + i],
        high,
        low,
    )
}

// The undecided blocks that are out, and what they would gain.
#[derive(Clone, Copy)]
pub struct Ruled {
    pub out: u32,
    pub gains: u64,
}

// The undecided blocks that are out, from the one at number at on, whose bit is the lowest; a parent before its children.
fn ruled_out(
    blocks: &[u32],
    count: usize,
    at: usize,
    set: u32,
    out: u32,
    high: &[u32],
    low: &[u32],
) -> Ruled
{
    let mut r: u32 = 0;
    let mut gains: u64 = 0;
    for i in at..count {
        let k = i - at;
        let gone = is_gone(blocks[PARENT + i], at, set, r);
        let test = is_ruled_out(blocks, i, is_out(out, k), gone, high, low);
        r = r + choose(test, bit(k as u32), 0);
        gains = gains + u64::from(choose(test, blocks[GAIN + i], 0));
    }
    Ruled { out: r, gains }
}

// What the undecided blocks that are out would gain, those from number at on.
fn out_gains(blocks: &[u32], count: usize, at: usize, out: u32) -> u64
{
    if out == 0 {
        return 0;
    }
    let mut gains: u64 = 0;
    for i in at..count {
        let k = i - at;
        let gain = choose(is_out(out, k), blocks[GAIN + i], 0);
        gains = gains + u64::from(gain);
    }
    gains
}

// Whether the other way to decide the block that was decided last loses the limit or more: then what a branch can reach is as it was before that block.
fn is_forced(blocks: &[u32], at: usize, set: u32, loss: u64, limit: u64) -> bool
{
    if at == 0 {
        return false;
    }
    let i = at - 1;
    let taken = (set >> (i as u32)) % 2 == 1;
    let other = if taken {
        blocks[GAIN + i]
    } else {
        blocks[AGAINST + i]
    };
    limit <= loss + u64::from(other)
}

// The best prices within reach, as they count: those for sells and those for buys.
#[derive(Clone, Copy)]
pub struct Bounds {
    pub high: [u32; HOURS],
    pub low: [u32; HOURS],
}

// The best prices over the places from `from` to `to`: for sells at the first of them, for buys at the last. Where prices can give way a completion's are
// anywhere from L to H, so these are H and L there; else they are the middle prices.
fn bounds_at(
    unit_prices: &[u32],
    shifts: bool,
    often: u32,
    from: [u32; HOURS],
    to: [u32; HOURS],
) -> Bounds
{
    if shifts {
        return Bounds {
            high: counted_prices(highs_at(unit_prices, from), often),
            low: counted_prices(lows_at(unit_prices, to), often),
        };
    }
    Bounds {
        high: counted_prices(prices_at(unit_prices, from), often),
        low: counted_prices(prices_at(unit_prices, to), often),
    }
}

// A branch is dropped where no completion can be lawful and lose less than the limit: where the decided blocks and those that are out lose as much already,
// where an hour can no longer balance, where the least gaps within reach come to as much, or where a taken block misses its limit at the best prices within
// reach. An undecided block that misses its limit there is out, and so is a child of one that is out or left out; the branch is dropped too where what they
// would gain and the least gaps come to as much. None where it is dropped, else its blocks that are out.
pub fn judge(tables: &Tables, left: u32, out: u32, node: Node, limit: u64) -> Option<u32>
{
    let blocks = tables.blocks;
    let hours = tables.hours;
    let count = tables.count as usize;
    let at = (tables.count - left) as usize;
    let charged = node.loss + out_gains(blocks, count, at, out);
    if limit <= charged {
        return None;
    }
    if is_forced(blocks, at, node.set, charged, limit) {
        return Some(out);
    }
    let reach = reach_at(hours, blocks, count, at, out, charged, limit, node.places)?;
    let from = reach.from;
    let to = reach.to;
    let often = hours[CHANGE];
    let least = node.loss + counted_least_gaps(tables.gap, &hours[TURN..CHANGE], from, to, often);
    if limit <= least {
        return None;
    }
    let bounds = bounds_at(tables.unit_prices, hours[SHIFTS] != 0, often, from, to);
    if !keeps_limits(blocks, at, node.set, &bounds.high, &bounds.low) {
        return None;
    }
    let ruled = ruled_out(blocks, count, at, node.set, out, &bounds.high, &bounds.low);
    if limit <= least + ruled.gains {
        return None;
    }
    Some(ruled.out)
}
