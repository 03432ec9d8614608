// Written by `twin_source` from crates/orders/src/parents.rt.
// The parents of a book's blocks: for each block the place of its parent among them. Assumes nothing.

use crate::twin::by_value::orders::follow;
use crate::twin::by_value::orders::layout::BLOCK_PLACES;
use crate::twin::by_value::chains::chained;
use crate::twin::by_value::records::{first_block, first_link, link_at, number_of};

// The number of a block's parent: that of the first link whose child the block is; 0 where there is none.
// No Option: a link of a refused book may name the parent 0, which the promised column takes for none.
fn parent_of(book: &[u8], number: u16) -> u16
{
    for i in chained(book, first_link(book)) {
        let link = link_at(book, i);
        if link.child == number {
            return link.parent;
        }
    }
    0
}

// One more than the place of the first record with this number; 0 where there is none, as the promised column has it.
fn place_of(book: &[u8], records: &[u16], number: u16) -> u32
{
    for (i, k) in records.iter().enumerate() {
        if number_of(book, *k) == number {
            return i as u32 + 1;
        }
    }
    0
}

// For the block of record k, one more than its parent's place among the blocks' records; 0 where it has no parent.
fn parent_place(book: &[u8], records: &[u16], k: u16) -> u32
{
    let parent = parent_of(book, number_of(book, k));
    if parent == 0 {
        return 0;
    }
    place_of(book, records, parent)
}

// For each of a book's blocks, one more than its parent's place among them; 0 where it has no parent, and behind the last block.
pub fn parents_of(book: &[u8]) -> [u32; BLOCK_PLACES]
{
    let mut parents = [0; BLOCK_PLACES];
    if first_link(book) == 0 {
        return parents;
    }
    let mut places = [0; BLOCK_PLACES];
    let records = follow(book, first_block(book), &mut places);
    for i in 0..records.len() {
        parents[i] = parent_place(book, records, records[i]);
    }
    parents
}
