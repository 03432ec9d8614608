// Written by `twin_source` from crates/chains/src/uncounted.rt.
// Cause 9: on a 23-hour day a step for hour 3, or a block with fewer than two counted hours. Assumes nothing.

use crate::twin::by_value::chains::Chain;
use crate::twin::by_value::chains::following::chained;
use crate::twin::by_value::chains::walks::first_on;
use crate::twin::by_value::fields::hours::{counted_hours, is_counted};
use crate::twin::by_value::fields::{FEWEST_HOURS, SPRING_HOURS};
use crate::twin::by_value::records::{Record, day_hours, record_at};

// Whether record i is a step for an hour that does not count, or a block with fewer than two counted hours.
fn is_uncounted(book: &[u8], i: u16) -> bool
{
    let day = day_hours(book);
    match record_at(book, i) {
        Record::Step(step) => !is_counted(day, u32::from(step.hour)),
        Record::Block(block) => counted_hours(day, block.hours) < FEWEST_HOURS,
        Record::Link(_) | Record::Other => false,
    }
}

// Cause 9 along a chain, whatever its day.
fn is_uncounted_on(book: &[u8], chain: Chain) -> bool
{
    chained(book, first_on(book, chain)).any(|i| is_uncounted(book, i))
}

// 9: on a 23-hour day a step for hour 3, or a block with fewer than two counted hours.
pub fn has_wrong_hours(book: &[u8]) -> bool
{
    if day_hours(book) != SPRING_HOURS {
        return false;
    }
    is_uncounted_on(book, Chain::Steps)
        | is_uncounted_on(book, Chain::Blocks)
        | is_uncounted_on(book, Chain::Links)
}
