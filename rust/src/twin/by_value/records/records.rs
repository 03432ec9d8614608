// Written by `twin_source` from crates/records/src/records.rt.
// The fields of the head and of record k, and a record as a step, a block or a link.
// Record k starts at byte 16 * k. Assumes nothing.

use crate::twin::by_value::records::bytes::{byte_at, is_nonzero, u16_at, u24_at, u32_at};
use crate::twin::by_value::records::layout::{
    BLOCK_HOURS_OFFSET, BLOCK_KIND, BLOCK_PRICE_OFFSET, BLOCK_QUANTITY_OFFSET, COUNT_OFFSET,
    DAY_HOURS_OFFSET, EDITION_OFFSET, FIRST_BLOCK_OFFSET, FIRST_LINK_OFFSET, FIRST_STEP_OFFSET,
    HOUR_OFFSET, LAST_HOUR, LINK_KIND, LINK_REST_OFFSET, LINK_REST_SIZE, NEXT_OFFSET,
    NUMBER_OFFSET, PARENT_OFFSET, PORTFOLIO_OFFSET, RECORD_SIZE, SIDE_OFFSET, STEP_KIND,
    STEP_PRICE_OFFSET, STEP_QUANTITY_OFFSET,
};
use crate::twin::by_value::records::{Block, Link, Record, Side, Step};

// The head's fields.
pub fn record_count(book: &[u8]) -> u16
{
    u16_at(book, COUNT_OFFSET)
}

pub fn first_step(book: &[u8]) -> u16
{
    u16_at(book, FIRST_STEP_OFFSET)
}

pub fn first_block(book: &[u8]) -> u16
{
    u16_at(book, FIRST_BLOCK_OFFSET)
}

pub fn first_link(book: &[u8]) -> u16
{
    u16_at(book, FIRST_LINK_OFFSET)
}

pub fn day_hours(book: &[u8]) -> u8
{
    byte_at(book, DAY_HOURS_OFFSET)
}

pub fn edition_of(book: &[u8]) -> u8
{
    byte_at(book, EDITION_OFFSET)
}

// The fields that steps and blocks share; a link has the first two bytes, the following record and, as its number, its child's.
pub fn kind_of(book: &[u8], k: u16) -> u8
{
    byte_at(book, RECORD_SIZE * u32::from(k))
}

pub fn side_byte(book: &[u8], k: u16) -> u8
{
    byte_at(book, RECORD_SIZE * u32::from(k) + SIDE_OFFSET)
}

pub fn next_of(book: &[u8], k: u16) -> u16
{
    u16_at(book, RECORD_SIZE * u32::from(k) + NEXT_OFFSET)
}

pub fn number_of(book: &[u8], k: u16) -> u16
{
    u16_at(book, RECORD_SIZE * u32::from(k) + NUMBER_OFFSET)
}

// A step's hour; 0 in a block.
pub fn hour_byte(book: &[u8], k: u16) -> u8
{
    byte_at(book, RECORD_SIZE * u32::from(k) + HOUR_OFFSET)
}

pub fn portfolio_of(book: &[u8], k: u16) -> u8
{
    byte_at(book, RECORD_SIZE * u32::from(k) + PORTFOLIO_OFFSET)
}

// Record k read as a step, whatever its kind.
pub fn step_at(book: &[u8], k: u16) -> Step
{
    let at = RECORD_SIZE * u32::from(k);
    Step {
        side: Side::from(side_byte(book, k)),
        number: number_of(book, k),
        hour: hour_byte(book, k),
        portfolio: portfolio_of(book, k),
        price: u32_at(book, at + STEP_PRICE_OFFSET),
        quantity: u32_at(book, at + STEP_QUANTITY_OFFSET),
    }
}

// The quantity of record k read as a block, whatever its kind.
pub fn block_quantity(book: &[u8], k: u16) -> u16
{
    u16_at(book, RECORD_SIZE * u32::from(k) + BLOCK_QUANTITY_OFFSET)
}

// Record k read as a block, whatever its kind. `record_at` is its only caller: with a second one it stays a call, and each reading of a record is slower.
fn block_at(book: &[u8], k: u16) -> Block
{
    let at = RECORD_SIZE * u32::from(k);
    Block {
        side: Side::from(side_byte(book, k)),
        number: number_of(book, k),
        portfolio: portfolio_of(book, k),
        hours: u24_at(book, at + BLOCK_HOURS_OFFSET),
        price: u24_at(book, at + BLOCK_PRICE_OFFSET),
        quantity: block_quantity(book, k),
    }
}

// Record k read as a link, whatever its kind.
pub fn link_at(book: &[u8], k: u16) -> Link
{
    Link {
        child: number_of(book, k),
        parent: u16_at(book, RECORD_SIZE * u32::from(k) + PARENT_OFFSET),
    }
}

// Whether the bytes of a link behind its parent's number are not all 0.
pub fn has_link_rest(book: &[u8], k: u16) -> bool
{
    is_nonzero(
        book,
        RECORD_SIZE * u32::from(k) + LINK_REST_OFFSET,
        LINK_REST_SIZE,
    )
}

// Record k as its kind says, where it is whole.
pub fn record_at(book: &[u8], k: u16) -> Record
{
    let behind = RECORD_SIZE * u32::from(k) + RECORD_SIZE;
    if book.len() < behind as usize {
        return Record::Other;
    }
    match kind_of(book, k) {
        STEP_KIND => Record::Step(step_at(book, k)),
        BLOCK_KIND => Record::Block(block_at(book, k)),
        LINK_KIND => Record::Link(link_at(book, k)),
        _ => Record::Other,
    }
}

// How many of the 24 hours are set.
pub fn hour_count(hours: u32) -> u32
{
    let mut count = 0;
    let mut rest = hours;
    for _ in 0..LAST_HOUR {
        if rest % 2 == 1 {
            count += 1;
        }
        rest /= 2;
    }
    count
}
