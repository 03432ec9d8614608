// Written by `twin_source` from crates/order/src/lib.rt.
// The order in which the search decides the blocks: chosen, tested, the blocks' columns put in it, and a set that is found put back by numbers. Any order
// is right, so of the choice only safety matters; the test and the columns are proved. Assumes nothing.

pub use columns::reordered;
pub use numbered::by_number;
use crate::twin::by_value::places::layout::MOST_BLOCKS;
pub use tested::order_of;

mod chosen; // which order
mod columns; // the columns and rows of the blocks in an order
mod names; // blocks named by their places
mod numbered; // sets by the blocks' numbers
mod tested; // whether a list is an order

// An order of the blocks: at each place the number of the block there, and of each block its place.
#[derive(Clone, Copy)]
pub struct Order {
    pub blocks: [usize; MOST_BLOCKS],
    pub places: [usize; MOST_BLOCKS],
}

// The columns and rows of the blocks, as the search reads them, and how many blocks there are.
#[derive(Clone, Copy)]
struct Listed<'a> {
    blocks: &'a [u32],
    count: usize,
}
