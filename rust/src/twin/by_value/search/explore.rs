// Written by `twin_source` from crates/search/src/explore.rt.
// Every way to decide the blocks that are left: a block taken, left out; a child only with its parent, and of twins only one way where the other is decided.

use crate::twin::by_value::search::Best;
use crate::twin::by_value::search::decide::{decide, limit_at};
use crate::twin::by_value::branches::Node;
use crate::twin::by_value::branches::judge::judge;
use crate::twin::by_value::branches::next::{is_barred, is_due, leave, take};
use crate::twin::by_value::orders::DaySteps;
use crate::twin::by_value::places::reach::is_out;
use crate::twin::by_value::places::tables::Tables;
use crate::twin::by_value::rivals::lookup::is_rivalled;

// Every way to decide the blocks that are left, each first taken and then left out; of twins, the one that is taken before the other first. A block that
// is out, or whose parent is left out, is only left out. A branch with a rival is not followed: the table has earlier ones, and none where it is empty. Each
// branch has its own node by value, so nothing is released. A unit of fuel is spent between the two ways to decide a block; where none is left the second way
// is not gone.
pub fn explore(
    tables: &Tables,
    steps: &DaySteps,
    table: &mut [u32],
    left: u32,
    out: u32,
    node: Node,
    best: Best,
) -> Best
{
    crate::twin::count::node();
    let limit = limit_at(best.limit, best.tie, node.tie);
    let Some(outs) = judge(tables, left, out, node, limit) else {
        crate::twin::count::cut();
        return best;
    };
    if left == 0 {
        return decide(tables, steps, node, best);
    }
    let blocks = tables.blocks;
    if is_rivalled(blocks, table, tables.count, left, node) {
        return best;
    }
    let at = tables.count - left;
    let after = left - 1;
    let still = outs / 2;
    let without = leave(blocks, at, node);
    if is_out(outs, 0) | is_barred(blocks, at as usize, node.set) {
        return explore(tables, steps, table, after, still, without, best);
    }
    let with = take(blocks, at, node);
    let mut taken = explore(tables, steps, table, after, still, with, best);
    if taken.fuel == 0 {
        return taken;
    }
    if is_due(blocks, at as usize, node.set) {
        return taken;
    }
    taken.fuel -= 1;
    explore(tables, steps, table, after, still, without, taken)
}
