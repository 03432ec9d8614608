// Written by `twin_source` from crates/passes/src/light.rt.
// Passes with small limits and little fuel, without rivals: where ordinary days are found.

use crate::twin::by_value::passes::limits::LITTLE_FUEL;
use crate::twin::by_value::passes::pass::pass;
use crate::twin::by_value::orders::DaySteps;
use crate::twin::by_value::places::tables::Tables;
use crate::twin::by_value::search::Best;

// The published set, where a light pass with a limit from..to finds it before the fuel is spent, a pass that has spent it says nothing; else the limit that
// was reached.
pub fn find_light(tables: &Tables, steps: &DaySteps, from: u64, to: u64) -> Result<Best, u64>
{
    let mut no_rivals: [u32; 0] = [];
    let mut fuel = LITTLE_FUEL;
    let mut limit = from;
    // The limit doubles from pass to pass, so this is no `for`.
    while limit <= to {
        let found = pass(tables, steps, &mut no_rivals, limit, fuel);
        if found.fuel == 0 {
            return Err(limit);
        }
        if found.limit < limit {
            return Ok(found);
        }
        fuel = found.fuel;
        limit *= 2;
    }
    Err(limit)
}
