// Written by `twin_source` from crates/clearing/src/lib.rt.
// The clearing: layer 3, above pricing.

use crate::twin::by_value::clearing::publish::publish;
use crate::twin::by_value::book::{MOST_RECORDS, Refusal, read, refuse};
use crate::twin::by_value::orders::layout::HOURS;
use crate::twin::by_value::orders::{Blocks, Steps, blocks_of, parents_of, steps_of};
use crate::twin::by_value::passes::find;
use crate::twin::by_value::places::tables::Tables;
use crate::twin::by_value::records::{day_hours, edition_of, record_count};
use crate::twin::by_value::result::{RECORD_ROW, RECORD_ROWS};
use crate::twin::by_value::setup::{prepare, row_needed};

mod publish; // the published set as the result

// The rows of the two pairs of tables: the small ones have room for all that 32 blocks of 50 trade in an hour, as in edition 1, the large ones for 32 of 250.
const SMALL_ROW: usize = 1602;

const LARGE_ROW: usize = 8002;

// The outcome of an accepted book into a result of the right size, out of its columns, in two tables with room for what its blocks reach.
fn clear_within(
    book: &[u8],
    steps: &Steps,
    blocks: &Blocks,
    unit_prices: &mut [u32],
    gap: &mut [u32],
    res: &mut [u8],
)
{
    let edition = edition_of(book);
    let day = day_hours(book);
    let count = record_count(book) as usize;
    let parents = parents_of(book);
    let columns = steps.lent();
    let prepared = prepare(edition, day, &columns, blocks, parents, unit_prices, gap);
    let tables = Tables {
        unit_prices,
        gap,
        hours: &prepared.hours,
        blocks: &prepared.columns,
        count: blocks.count as u32,
    };
    let best = find(&tables, &columns);
    publish(day, count, steps, blocks, best.set, best.day, res);
}

// The same in small tables, where the blocks reach no further.
fn clear_small(book: &[u8], steps: &Steps, blocks: &Blocks, res: &mut [u8])
{
    let mut unit_prices = [0; HOURS * SMALL_ROW];
    let mut gap = [0; HOURS * SMALL_ROW];
    clear_within(book, steps, blocks, &mut unit_prices, &mut gap, res);
}

// The same in large tables, which have room for any blocks of a book.
fn clear_large(book: &[u8], steps: &Steps, blocks: &Blocks, res: &mut [u8])
{
    let mut unit_prices = [0; HOURS * LARGE_ROW];
    let mut gap = [0; HOURS * LARGE_ROW];
    clear_within(book, steps, blocks, &mut unit_prices, &mut gap, res);
}

// The outcome of an accepted book into a result of the right size.
fn clear_accepted(book: &[u8], res: &mut [u8])
{
    let steps = steps_of(book);
    let blocks = blocks_of(book);
    if row_needed(&blocks) <= SMALL_ROW {
        clear_small(book, &steps, &blocks, res);
    } else {
        clear_large(book, &steps, &blocks, res);
    }
}

// The auction's outcome for a book, written to the result; or the first refusal whose cause holds, and the result as it was.
pub fn clear(book: &[u8], res: &mut [u8]) -> Result<(), Refusal>
{
    read(book)?;
    let size = RECORD_ROWS + RECORD_ROW * (record_count(book) as usize);
    refuse(res.len() != size, Refusal::WrongBuffer)?;
    clear_accepted(book, res);
    Ok(())
}

// The same into the front of `space`, which has room for the result of any book: how many bytes of it are the result.
pub fn clear_front(book: &[u8], space: &mut [u8]) -> Result<usize, Refusal>
{
    let rows = record_count(book).min(MOST_RECORDS);
    let size = RECORD_ROWS + RECORD_ROW * usize::from(rows);
    clear(book, &mut space[..size])?;
    Ok(size)
}
