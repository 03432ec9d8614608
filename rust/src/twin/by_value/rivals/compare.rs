// Written by `twin_source` from crates/rivals/src/compare.rt.
// The tests of a rival: what is asked of its blocks and their links, by the columns, and of its places and its cost. Assumes nothing.

use crate::twin::by_value::rivals::replay::takes;
use crate::twin::by_value::branches::Node;
use crate::twin::by_value::branches::next::is_left;
use crate::twin::by_value::places::layout::{LIMIT, PARENT, RUNS, SIDE};

// Whether block j keeps its limit wherever block i does: it has the same side and hours, and its limit is no tighter.
fn is_outdone_by(blocks: &[u32], j: usize, i: usize) -> bool
{
    if blocks[SIDE + j] != blocks[SIDE + i] {
        return false;
    }
    if blocks[RUNS + j] != blocks[RUNS + i] {
        return false;
    }
    if blocks[SIDE + j] == 0 {
        return blocks[LIMIT + i] <= blocks[LIMIT + j];
    }
    blocks[LIMIT + j] <= blocks[LIMIT + i]
}

// Whether one of the first blocks that the set holds outdoes block j.
fn is_outdone(blocks: &[u32], at: u32, set: u32, j: usize) -> bool
{
    for i in 0..at {
        if takes(set, i) && is_outdone_by(blocks, j, i as usize) {
            return true;
        }
    }
    false
}

// Whether block j is in the set where the rival holds it, or outdone by one of the set's first blocks.
fn is_matched(blocks: &[u32], at: u32, set: u32, rival: u32, j: u32) -> bool
{
    if takes(rival, j) & !takes(set, j) {
        return is_outdone(blocks, at, set, j as usize);
    }
    true
}

// Whether each of the first blocks is.
pub fn holds_outdone(blocks: &[u32], at: u32, set: u32, rival: u32) -> bool
{
    for j in 0..at {
        if !is_matched(blocks, at, set, rival, j) {
            return false;
        }
    }
    true
}

// Whether the rival holds none of the first blocks without its parent.
pub fn holds_parents(blocks: &[u32], at: u32, rival: u32) -> bool
{
    for j in 0..at {
        if takes(rival, j) & is_left(blocks[PARENT + (j as usize)], rival) {
            return false;
        }
    }
    true
}

// Whether no undecided block has a parent that the set holds and the rival does not: what completes the set may take such a block.
pub fn leaves_no_child(blocks: &[u32], count: u32, at: u32, set: u32, rival: u32) -> bool
{
    for j in at..count {
        let parent = blocks[PARENT + (j as usize)];
        if is_left(parent, rival) & !is_left(parent, set) {
            return false;
        }
    }
    true
}

// Whether what is decided in a branch costs less: by loss, and at the same loss by its ties, which are less than the ties' room.
pub fn costs_less(other: Node, node: Node) -> bool
{
    if other.loss < node.loss {
        return true;
    }
    (other.loss == node.loss) & (other.tie < node.tie)
}
