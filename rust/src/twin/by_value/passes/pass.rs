// Written by `twin_source` from crates/passes/src/pass.rt.
// One pass over all blocks.

use crate::twin::by_value::branches::Node;
use crate::twin::by_value::orders::DaySteps;
use crate::twin::by_value::places::layout::HOURS;
use crate::twin::by_value::places::tables::Tables;
use crate::twin::by_value::search::explore::explore;
use crate::twin::by_value::search::{Best, Day};

// No set is found yet, and a limit is set; with fuel.
pub fn start_at(limit: u64, fuel: u64) -> Best
{
    let day = Day {
        prices: [0; HOURS],
        quantities: [0; HOURS],
    };
    Best {
        limit,
        tie: 0,
        fuel,
        set: 0,
        day,
    }
}

// A pass over all blocks from a limit, with fuel; rivals are looked up in the table, where it has slots.
pub fn pass(tables: &Tables, steps: &DaySteps, table: &mut [u32], limit: u64, fuel: u64) -> Best
{
    let root = Node {
        set: 0,
        loss: 0,
        tie: 0,
        places: [0; HOURS],
    };
    explore(
        tables,
        steps,
        table,
        tables.count,
        0,
        root,
        start_at(limit, fuel),
    )
}
