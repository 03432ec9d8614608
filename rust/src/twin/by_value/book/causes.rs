// Written by `twin_source` from crates/book/src/causes.rt.
// The causes for which a book by itself is refused, 1 to 6 and 9 to 11, and the first of them that holds. Assumes nothing.

use crate::twin::by_value::book::bounds::{
    AUTUMN_HOURS, FIRST_LINK_EDITION, FIRST_STEP_LIMIT_EDITION, LAST_EDITION, MOST_BLOCKS,
    MOST_RECORDS,
};
use crate::twin::by_value::book::refusal::{Refusal, refuse};
use crate::twin::by_value::chains::{
    Chain, MOST_STEPS_IN_HOUR, PORTFOLIO_NUMBERS, Surveyed, counts_by_portfolio, has_more_steps,
    has_wrong_hours, has_wrong_link,
};
use crate::twin::by_value::fields::{FIRST_EDITION, SPRING_HOURS, is_within, most_blocks_of_portfolio};
use crate::twin::by_value::records::{
    HEAD_REST_OFFSET, HEAD_REST_SIZE, RECORD_SIZE, day_hours, edition_of, first_link, is_nonzero,
    record_count,
};

// 1: the length, or the record count.
pub fn has_wrong_size(book: &[u8]) -> bool
{
    let count = record_count(book);
    let size = (RECORD_SIZE * (count as u32)) as usize;
    (book.len() != size)
        | (book.len() < RECORD_SIZE as usize)
        | !is_within(1, count as u32, MOST_RECORDS as u32)
}

// A first link in an edition without links.
fn has_early_links(book: &[u8]) -> bool
{
    (edition_of(book) < FIRST_LINK_EDITION) & (first_link(book) != 0)
}

// 2: the head.
fn has_wrong_head(book: &[u8]) -> bool
{
    !is_within(
        SPRING_HOURS as u32,
        day_hours(book) as u32,
        AUTUMN_HOURS as u32,
    ) | !is_within(
        FIRST_EDITION as u32,
        edition_of(book) as u32,
        LAST_EDITION as u32,
    ) | has_early_links(book)
        | is_nonzero(book, HEAD_REST_OFFSET, HEAD_REST_SIZE)
}

// 5, where 3 does not hold: the records of the chains are then distinct, so one is missing just where head and chains are fewer than R.
fn are_short(steps: u16, blocks: u16, links: u16, count: u16) -> bool
{
    (steps as u32) + (blocks as u32) + (links as u32) + 1 < (count as u32)
}

// 6, of one portfolio: more blocks than the edition's limit.
fn has_crowded_portfolio(book: &[u8]) -> bool
{
    let most = most_blocks_of_portfolio(edition_of(book));
    let counts = counts_by_portfolio(book, Chain::Blocks);
    for count in counts {
        if most < count {
            return true;
        }
    }
    false
}

// 11, looked for only in an edition with this limit, and where the chain has more steps than one portfolio may have in one hour.
fn has_too_many_steps(book: &[u8], steps: u16) -> bool
{
    if edition_of(book) < FIRST_STEP_LIMIT_EDITION {
        return false;
    }
    if steps <= MOST_STEPS_IN_HOUR {
        return false;
    }
    has_more_steps(book)
}

// Refused for the first cause that holds, where 1 does not. What the walks along the chains found is handed in; later causes are looked for only where no
// earlier one holds.
pub fn refuse_for_rest(
    book: &[u8],
    steps: Surveyed,
    blocks: Surveyed,
    links: Surveyed,
) -> Result<(), Refusal>
{
    refuse(has_wrong_head(book), Refusal::WrongHead)?;
    let is_broken = steps.broken | blocks.broken | links.broken;
    refuse(is_broken, Refusal::BrokenChain)?;
    let is_outside = steps.outside | blocks.outside | links.outside;
    refuse(is_outside, Refusal::WrongField)?;
    let count = record_count(book);
    let is_short = are_short(steps.length, blocks.length, links.length, count);
    refuse(is_short, Refusal::StrayRecord)?;
    let is_crowded = (MOST_BLOCKS < blocks.length) | has_crowded_portfolio(book);
    refuse(is_crowded, Refusal::TooManyBlocks)?;
    refuse(has_wrong_hours(book), Refusal::WrongHours)?;
    refuse(has_wrong_link(book), Refusal::WrongLink)?;
    refuse(
        has_too_many_steps(book, steps.length),
        Refusal::TooManySteps,
    )
}
