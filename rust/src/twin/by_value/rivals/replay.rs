// Written by `twin_source` from crates/rivals/src/replay.rt.
// The branch of a set's decisions on the first blocks, decided anew from nothing. Assumes nothing.

use crate::twin::by_value::branches::Node;
use crate::twin::by_value::branches::next::{leave, take};
use crate::twin::by_value::places::layout::HOURS;

// Whether a set holds block j.
pub fn takes(set: u32, j: u32) -> bool
{
    (set >> j) % 2 == 1
}

// The node with one more block decided as in the set.
fn with_next(blocks: &[u32], at: u32, set: u32, node: Node) -> Node
{
    if takes(set, at) {
        return take(blocks, at, node);
    }
    leave(blocks, at, node)
}

// The node of the set's decisions on the first blocks, at of them; what else the set has does not count.
pub fn replayed(blocks: &[u32], at: u32, set: u32) -> Node
{
    let mut node = Node {
        set: 0,
        loss: 0,
        tie: 0,
        places: [0; HOURS],
    };
    for i in 0..at {
        node = with_next(blocks, i, set, node);
    }
    node
}
