// Written by `twin_source` from crates/fields/src/ranges.rt.
// The ranges of a record's fields: cause 4 at one record, and the limits of an edition. Assumes nothing.

use crate::twin::by_value::fields::bounds::{
    FEWEST_HOURS, FIRST_BLOCK_QUANTITY, FIRST_BLOCKS_OF_PORTFOLIO, FIRST_EDITION, LAST_PORTFOLIO,
    MAX_PRICE, MOST_STEP_QUANTITY, NOTICE_BLOCK_QUANTITY, NOTICE_BLOCKS_OF_PORTFOLIO,
};
use crate::twin::by_value::records::{
    Block, LAST_HOUR, LAST_SIDE, Record, Step, edition_of, has_link_rest, hour_byte, hour_count,
    record_at, side_byte,
};

// Whether x is from low to high.
pub fn is_within(low: u32, x: u32, high: u32) -> bool
{
    (low <= x) & (x <= high)
}

// What edition 1 has, or each edition from 2 on.
fn of_edition<T: Copy>(edition: u8, first: T, later: T) -> T
{
    if edition <= FIRST_EDITION {
        first
    } else {
        later
    }
}

// The largest quantity of a block.
fn most_block_quantity(edition: u8) -> u32
{
    of_edition(edition, FIRST_BLOCK_QUANTITY, NOTICE_BLOCK_QUANTITY)
}

// The most blocks that one portfolio may have.
pub fn most_blocks_of_portfolio(edition: u8) -> u16
{
    of_edition(
        edition,
        FIRST_BLOCKS_OF_PORTFOLIO,
        NOTICE_BLOCKS_OF_PORTFOLIO,
    )
}

// Whether a step's fields, its side apart, are in their ranges.
fn step_fits(step: Step) -> bool
{
    is_within(1, u32::from(step.hour), LAST_HOUR)
        & is_within(1, u32::from(step.portfolio), u32::from(LAST_PORTFOLIO))
        & is_within(1, step.price, MAX_PRICE)
        & is_within(1, step.quantity, MOST_STEP_QUANTITY)
}

// Whether a block's fields, its side and byte 6 apart, are in their ranges.
fn block_fits(edition: u8, block: Block) -> bool
{
    is_within(1, u32::from(block.portfolio), u32::from(LAST_PORTFOLIO))
        & (FEWEST_HOURS <= hour_count(block.hours))
        & is_within(1, block.price, MAX_PRICE)
        & is_within(1, u32::from(block.quantity), most_block_quantity(edition))
}

// Whether record i, a step, has its fields in range.
fn is_step_in_range(book: &[u8], i: u16, step: Step) -> bool
{
    is_within(0, u32::from(side_byte(book, i)), LAST_SIDE) & step_fits(step)
}

// Whether record i, a block, has its fields in range.
fn is_block_in_range(book: &[u8], i: u16, block: Block) -> bool
{
    is_within(0, u32::from(side_byte(book, i)), LAST_SIDE)
        & (hour_byte(book, i) == 0)
        & block_fits(edition_of(book), block)
}

// Whether record i, a link, has its bytes 1 and 8-15 at 0.
fn is_link_in_range(book: &[u8], i: u16) -> bool
{
    (side_byte(book, i) == 0) & !has_link_rest(book, i)
}

// Whether record i has a field outside its range.
pub fn is_out_of_range(book: &[u8], i: u16) -> bool
{
    match record_at(book, i) {
        Record::Step(step) => !is_step_in_range(book, i, step),
        Record::Block(block) => !is_block_in_range(book, i, block),
        Record::Link(_) => !is_link_in_range(book, i),
        Record::Other => false,
    }
}
