// Written by `twin_source` from crates/branches/src/next.rt.
// One more block decided: taken or left out, and whether it may be only one of the two.

use crate::twin::by_value::branches::Node;
use crate::twin::by_value::branches::judge::bit;
use crate::twin::by_value::places::added::moved_where;
use crate::twin::by_value::places::layout::{AGAINST, AHEAD, BEHIND, GAIN, PARENT, RANK, SIDE};

// The node with block number at taken: a sell moves the places on in its hours.
pub fn take(blocks: &[u32], at: u32, node: Node) -> Node
{
    let i = at as usize;
    let moved = moved_where(blocks[SIDE + i] != 0, node.places, blocks, i);
    Node {
        set: node.set + bit(at),
        loss: node.loss + u64::from(blocks[AGAINST + i]),
        tie: node.tie,
        places: moved,
    }
}

// The node with block number at left out: a buy moves the places on in its hours, and the block counts by its rank.
pub fn leave(blocks: &[u32], at: u32, node: Node) -> Node
{
    let i = at as usize;
    let moved = moved_where(blocks[SIDE + i] == 0, node.places, blocks, i);
    Node {
        set: node.set,
        loss: node.loss + u64::from(blocks[GAIN + i]),
        tie: node.tie + u64::from(blocks[RANK + i]),
        places: moved,
    }
}

// Whether the block that is named, by its number and 1, is left out; where none is, by 0, it is not.
// A name stays a number, as the column of the search's list has it.
pub fn is_left(name: u32, set: u32) -> bool
{
    if name == 0 {
        return false;
    }
    (set >> (name - 1)) % 2 == 0
}

// Whether the parent of block i is left out, or a twin that is taken before it.
pub fn is_barred(blocks: &[u32], i: usize, set: u32) -> bool
{
    is_left(blocks[PARENT + i], set) | is_left(blocks[AHEAD + i], set)
}

// Whether a twin that is taken after block i is taken; named as in `is_left`, by a number of the packed list.
pub fn is_due(blocks: &[u32], i: usize, set: u32) -> bool
{
    let behind = blocks[BEHIND + i];
    if behind == 0 {
        return false;
    }
    (set >> (behind - 1)) % 2 == 1
}
