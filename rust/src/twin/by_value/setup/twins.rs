// Written by `twin_source` from crates/setup/src/twins.rt.
// The twins for the search: for each block the earlier one of the same side, hours and quantity that is taken before it, and the one that is taken after it.
// Only where to exchange the two breaks no link.

use crate::twin::by_value::places::layout::{AHEAD, BEHIND, BLOCK_LIST, LIMIT, MOST_BLOCKS, PARENT, QUANTITY, RUNS, SIDE};
use crate::twin::by_value::places::numbers::choose;

// What the parents' column may name: 0 for none, and of each block its number and 1.
const PARENT_NUMBERS: usize = MOST_BLOCKS + 1;

// Each that it names, marked with 1.
fn parent_marks(blocks: &[u32]) -> [u32; PARENT_NUMBERS]
{
    let mut marks = [0; PARENT_NUMBERS];
    for j in 0..MOST_BLOCKS {
        marks[blocks[PARENT + j] as usize] = 1;
    }
    marks
}

// Whether block a may stand in for block b: it has no parent or b's, and b is nobody's parent.
fn may_stand_in(blocks: &[u32], marks: &[u32], a: usize, b: usize) -> bool
{
    let parent = blocks[PARENT + a];
    let none_or_same = (parent == 0) | (parent == blocks[PARENT + b]);
    none_or_same & (marks[b + 1] == 0)
}

// Whether two blocks are twins: of the same side, hours and quantity.
fn are_twins(blocks: &[u32], a: usize, b: usize) -> bool
{
    let same_side = blocks[SIDE + a] == blocks[SIDE + b];
    let same_hours = blocks[RUNS + a] == blocks[RUNS + b];
    let same_quantity = blocks[QUANTITY + a] == blocks[QUANTITY + b];
    (same_side & same_hours) & same_quantity
}

// Whether blocks j and i are twins of which the one ahead may stand in for the other: j for i, or where ahead is false i for j.
fn may_exchange(blocks: &[u32], marks: &[u32], j: usize, i: usize, ahead: bool) -> bool
{
    if !are_twins(blocks, j, i) {
        return false;
    }
    if ahead {
        may_stand_in(blocks, marks, j, i)
    } else {
        may_stand_in(blocks, marks, i, j)
    }
}

// Whether a limit is kept wherever another is: a buy's is no lower, a sell's no higher.
fn is_no_worse(side: u32, limit: u32, other: u32) -> bool
{
    if side == 0 {
        other <= limit
    } else {
        limit <= other
    }
}

// Of the earlier twins of block i that are taken before it, the last by limit; where ahead is false, of those that are taken after it, the first.
fn nearest_twin(blocks: &[u32], marks: &[u32], i: usize, ahead: bool) -> Option<usize>
{
    let side = blocks[SIDE + i];
    let limit = blocks[LIMIT + i];
    let trades = 0 < blocks[QUANTITY + i];
    let mut found = None;
    let mut edge = choose((side == 0) == ahead, u32::MAX, 0);
    for j in 0..i {
        let here = blocks[LIMIT + j];
        let twins = may_exchange(blocks, marks, j, i, ahead);
        let fits = (twins & trades) & (is_no_worse(side, here, limit) == ahead);
        if fits & (is_no_worse(side, edge, here) == ahead) {
            found = Some(j);
            edge = here;
        }
    }
    found
}

// A twin's number and 1, or 0 for none: what the columns hold.
fn numbered(found: Option<usize>) -> u32
{
    match found {
        Some(a) => a as u32 + 1,
        None => 0,
    }
}

// The same with the twins of each block.
pub fn with_twins(count: usize, blocks: [u32; BLOCK_LIST]) -> [u32; BLOCK_LIST]
{
    let marks = parent_marks(&blocks);
    let mut r = blocks;
    for i in 0..count {
        r[AHEAD + i] = numbered(nearest_twin(&blocks, &marks, i, true));
        r[BEHIND + i] = numbered(nearest_twin(&blocks, &marks, i, false));
    }
    r
}
