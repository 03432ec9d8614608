// Written by `twin_source` from crates/setup/src/lib.rt.
// The setup of the search: from a book's decoded columns to the tables of the hours and the columns of the blocks. Assumes nothing.

use crate::twin::by_value::setup::blocks::{block_columns, largest, traded_by_hour, widened, with_parents, with_rows};
use crate::twin::by_value::setup::rows::{fill_ranges, fill_tables, joined};
use crate::twin::by_value::setup::twins::with_twins;
use crate::twin::by_value::fields::hours::change_weight;
use crate::twin::by_value::orders::{Blocks, DaySteps};
use crate::twin::by_value::places::cells::counted_prices;
use crate::twin::by_value::places::layout::{BLOCK_LIST, HOUR_LIST, HOURS, LAST_AND_ABOVE, MOST_BLOCKS};
use crate::twin::by_value::roots::root_prices;

pub mod blocks; // what they trade, their columns, parents and rows
pub mod rows; // the tables, ranges and gaps of the hours
pub mod twins; // the blocks that are taken in turn

// What the search is given besides the two tables: the hours' three columns, and the blocks' columns and rows.
#[derive(Clone, Copy)]
pub struct Prepared {
    pub hours: [u32; HOUR_LIST],
    pub columns: [u32; BLOCK_LIST],
}

// The places that a row needs: up to the last that the blocks reach in any hour, and the one above it.
pub fn row_needed(blocks: &Blocks) -> usize
{
    let most = traded_by_hour(blocks, true);
    (largest(most) as usize) + LAST_AND_ABOVE
}

// All that the search is given in an edition, on a day of so many hours, from the columns of a book's steps and blocks and the blocks' parents (the position and 1, or 0 for none);
// unit_prices and gap are its two tables, a row of places for each hour.
pub fn prepare(
    edition: u8,
    day: u8,
    steps: &DaySteps,
    blocks: &Blocks,
    parents: [u32; MOST_BLOCKS],
    unit_prices: &mut [u32],
    gap: &mut [u32],
) -> Prepared
{
    let off = traded_by_hour(blocks, false);
    let most = traded_by_hour(blocks, true);
    fill_tables(steps, off, most, unit_prices);
    let root = root_prices(edition, day, unit_prices, off, blocks);
    let ranges = fill_ranges(steps, off, most, root, unit_prices, gap);
    let often = change_weight(day);
    let counted = counted_prices(root, often);
    let columns = block_columns(day, blocks, counted);
    let first = ranges.first;
    let last = ranges.last;
    let turn = ranges.turn;
    let wide = widened(columns);
    let linked = with_parents(parents, wide);
    let traded = with_rows(blocks.count, linked);
    Prepared {
        hours: joined(first, last, turn, often, edition),
        columns: with_twins(blocks.count, traded),
    }
}
