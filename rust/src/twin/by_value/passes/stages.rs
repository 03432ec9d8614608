// Written by `twin_source` from crates/passes/src/stages.rt.
// Light passes, then heavy ones; where blocks are linked, from a guess on.

use crate::twin::by_value::passes::heavy::find_heavy;
use crate::twin::by_value::passes::light::find_light;
use crate::twin::by_value::passes::limits::{FIRST_LIMIT, LAST_LIGHT, LAST_NEAR};
use crate::twin::by_value::guess::guess;
use crate::twin::by_value::orders::DaySteps;
use crate::twin::by_value::places::layout::PARENT;
use crate::twin::by_value::places::tables::Tables;
use crate::twin::by_value::search::Best;

// Whether one of the first count blocks has a parent.
fn is_linked(blocks: &[u32], count: usize) -> bool
{
    for i in 0..count {
        if blocks[PARENT + i] != 0 {
            return true;
        }
    }
    false
}

// The published set by rising limits. Ordinary days are found by the light passes, and pay nothing for a guess or a table.
fn find_by_limits(tables: &Tables, steps: &DaySteps) -> Best
{
    match find_light(tables, steps, FIRST_LIMIT, LAST_LIGHT) {
        Ok(best) => best,
        Err(limit) => find_heavy(tables, steps, guess(tables), limit),
    }
}

// The published set from the guess on: a set of linked blocks loses much, since a parent that misses its limit takes its children out with it, and no small
// limit finds it. A guess that is far off is not gone by.
fn find_at_guess(tables: &Tables, steps: &DaySteps) -> Best
{
    let guessed = guess(tables);
    let Some(loss) = guessed else {
        return find_by_limits(tables, steps);
    };
    if LAST_NEAR < loss {
        return find_by_limits(tables, steps);
    }
    match find_light(tables, steps, loss + 1, loss + 1) {
        Ok(best) => best,
        Err(_) => find_heavy(tables, steps, guessed, FIRST_LIMIT),
    }
}

// The published set, of blocks as they stand.
pub fn find_there(tables: &Tables, steps: &DaySteps) -> Best
{
    if is_linked(tables.blocks, tables.count as usize) {
        return find_at_guess(tables, steps);
    }
    find_by_limits(tables, steps)
}
