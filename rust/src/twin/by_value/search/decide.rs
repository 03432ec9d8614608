// Written by `twin_source` from crates/search/src/decide.rt.
// All blocks are decided: whether the set becomes the best, with its day.

use crate::twin::by_value::search::{Best, Day};
use crate::twin::by_value::branches::Node;
use crate::twin::by_value::orders::DaySteps;
use crate::twin::by_value::places::cells::{counted_gaps, counted_prices, prices_at, shifted_prices};
use crate::twin::by_value::places::layout::{CHANGE, FIRST, HOURS, LAST, SHIFTS, TURN};
use crate::twin::by_value::places::limits::keeps_limits;
use crate::twin::by_value::places::tables::Tables;
use crate::twin::by_value::places::trades::{hours_traded, set_trades};
use crate::twin::by_value::shift::shift_of;

// What a branch's completions must lose less than: the best's loss, or one more where its left-out blocks come to less, so that a tie may still be settled.
pub fn limit_at(limit: u64, tie: u64, here: u64) -> u64
{
    if here < tie {
        return limit + 1;
    }
    limit
}

// The set as the best, with what it loses and its day at these prices.
fn found_at(
    tables: &Tables,
    steps: &DaySteps,
    node: Node,
    limit: u64,
    fuel: u64,
    prices: [u32; HOURS],
) -> Best
{
    let trades = set_trades(tables.blocks, tables.count as usize, node.set);
    let quantities = hours_traded(steps, trades, prices);
    Best {
        limit,
        tie: node.tie,
        fuel,
        set: node.set,
        day: Day { prices, quantities },
    }
}

// The set at the shift nearest the middle at which its blocks keep their limits; the best as it was where there is none.
fn decide_at_shift(tables: &Tables, steps: &DaySteps, node: Node, limit: u64, best: Best) -> Best
{
    let Some(shift) = shift_of(tables, node.set, node.places, tables.hours[CHANGE]) else {
        return best;
    };
    let shifted = shifted_prices(tables.unit_prices, node.places, shift);
    found_at(tables, steps, node, limit, best.fuel, shifted)
}

// All blocks are decided: the set becomes the best where it is lawful and loses less, with its day. The middle prices first: another shift is looked for
// only where they miss a limit and prices can give way.
pub fn decide(tables: &Tables, steps: &DaySteps, node: Node, best: Best) -> Best
{
    let hours = tables.hours;
    let often = hours[CHANGE];
    let gaps = counted_gaps(
        tables.gap,
        &hours[FIRST..LAST],
        &hours[LAST..TURN],
        node.places,
        often,
    );
    let Some(sum) = gaps else {
        return best;
    };
    let total = node.loss + sum;
    if limit_at(best.limit, best.tie, node.tie) <= total {
        return best;
    }
    let middles = prices_at(tables.unit_prices, node.places);
    let counted = counted_prices(middles, often);
    if keeps_limits(
        tables.blocks,
        tables.count as usize,
        node.set,
        &counted,
        &counted,
    ) {
        return found_at(tables, steps, node, total, best.fuel, middles);
    }
    if hours[SHIFTS] == 0 {
        return best;
    }
    decide_at_shift(tables, steps, node, total, best)
}
