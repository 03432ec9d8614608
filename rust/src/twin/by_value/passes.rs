// Written by `twin_source` from crates/passes/src/lib.rt.
// The passes of the search over all blocks, until one has found the published set: with small limits and little fuel, where ordinary days are found; then with
// larger limits and a table of rivals. The blocks are decided in an order that members do not choose; ties are settled by number. Assumes nothing.

use crate::twin::by_value::passes::stages::find_there;
use crate::twin::by_value::order::{by_number, order_of, reordered};
use crate::twin::by_value::orders::DaySteps;
use crate::twin::by_value::places::tables::Tables;
use crate::twin::by_value::search::Best;

mod heavy; // passes with a table of rivals
mod light; // passes with little fuel
mod limits; // the limits of the passes
mod pass; // one pass
mod stages; // light passes, then heavy ones

// The published set, by number: found with the blocks in the order in which they are decided.
pub fn find(tables: &Tables, steps: &DaySteps) -> Best
{
    let count = tables.count as usize;
    let order = order_of(tables.blocks, count);
    let blocks = reordered(tables.blocks, &order, count);
    let ordered = Tables {
        blocks: &blocks,
        ..*tables
    };
    let mut best = find_there(&ordered, steps);
    best.set = by_number(best.set, &order, count);
    best
}
