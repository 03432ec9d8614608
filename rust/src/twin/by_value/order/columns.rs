// Written by `twin_source` from crates/order/src/columns.rt.
// The columns and rows of the blocks in an order.

use crate::twin::by_value::order::names::{earlier_name, placed_name, rank_of};
use crate::twin::by_value::order::{Listed, Order};
use crate::twin::by_value::places::layout::{
    AHEAD, BEHIND, BLOCK_LIST, BLOCK_ROWS, HOURS, MOST_BLOCKS, PARENT, RANK, SIX_COLUMNS,
};

// The first six columns in an order, with room for the others.
fn columns_in(listed: &Listed, order: &Order) -> [u32; BLOCK_LIST]
{
    let mut r = [0; BLOCK_LIST];
    for k in 0..SIX_COLUMNS {
        let j = k % MOST_BLOCKS;
        if j < listed.count {
            r[k] = listed.blocks[k - j + order.blocks[j]];
        }
    }
    r
}

// The same with the parent of each block, its twins where they stand before it, and its rank by number.
fn with_links(columns: [u32; BLOCK_LIST], listed: &Listed, order: &Order) -> [u32; BLOCK_LIST]
{
    let mut r = columns;
    for j in 0..listed.count {
        let i = order.blocks[j];
        r[PARENT + j] = placed_name(order, listed.blocks[PARENT + i]);
        r[AHEAD + j] = earlier_name(order, listed.count, j, listed.blocks[AHEAD + i]);
        r[BEHIND + j] = earlier_name(order, listed.count, j, listed.blocks[BEHIND + i]);
        r[RANK + j] = rank_of(i as u32);
    }
    r
}

// The same with the row of each block.
fn with_rows(linked: [u32; BLOCK_LIST], listed: &Listed, order: &Order) -> [u32; BLOCK_LIST]
{
    let mut r = linked;
    for k in 0..HOURS * listed.count {
        let row = BLOCK_ROWS + HOURS * order.blocks[k / HOURS];
        r[BLOCK_ROWS + k] = listed.blocks[row + k % HOURS];
    }
    r
}

// The columns and rows of the blocks in an order.
pub fn reordered(blocks: &[u32], order: &Order, count: usize) -> [u32; BLOCK_LIST]
{
    let listed = Listed { blocks, count };
    let columns = columns_in(&listed, order);
    let linked = with_links(columns, &listed, order);
    with_rows(linked, &listed, order)
}
