// Written by `twin_source` from crates/rivals/src/lookup.rt.
// Whether a branch has a rival in a table of earlier branches. Assumes nothing.

use crate::twin::by_value::rivals::compare::{costs_less, holds_outdone, holds_parents, leaves_no_child};
use crate::twin::by_value::rivals::replay::replayed;
use crate::twin::by_value::rivals::slots::slot_of;
use crate::twin::by_value::branches::Node;

// With fewer undecided blocks a branch is followed sooner than it is looked up.
const LEAST_LEFT: u32 = 3;

// Whether a set's decisions on the decided blocks are a rival of the branch. The cheap tests come first: most hints of other branches fail them.
fn is_rival(blocks: &[u32], count: u32, left: u32, node: Node, rival: u32) -> bool
{
    let at = count - left;
    if !holds_outdone(blocks, at, node.set, rival) {
        return false;
    }
    if !holds_parents(blocks, at, rival) {
        return false;
    }
    if !leaves_no_child(blocks, count, at, node.set, rival) {
        return false;
    }
    let other = replayed(blocks, at, rival);
    if other.places != node.places {
        return false;
    }
    costs_less(other, node)
}

// Whether the branch has a rival in the table; where it has none, it takes the place of what was looked up. A table without slots is for a search without
// rivals. A hint of no blocks is a slot that is empty, one of the branch's own the branch itself, met again. An Option in each slot would double the table.
pub fn is_rivalled(blocks: &[u32], table: &mut [u32], count: u32, left: u32, node: Node) -> bool
{
    let size = table.len();
    if (size == 0) | (left < LEAST_LEFT) {
        return false;
    }
    let slot = slot_of(node.places, count - left, size);
    let hint = table[slot];
    if (hint != 0) & (hint != node.set) {
        if is_rival(blocks, count, left, node, hint) {
            return true;
        }
    }
    table[slot] = node.set;
    false
}
