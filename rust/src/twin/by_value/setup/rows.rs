// Written by `twin_source` from crates/setup/src/rows.rt.
// The hours for the search: the price table of each, the places at which it clears, and its gaps there, row after row; and the hours' three columns.

use crate::twin::by_value::orders::{DaySteps, HourSteps};
use crate::twin::by_value::places::layout::{CHANGE, HOUR_LIST, HOURS, LAST, LAST_AND_ABOVE, SHIFTS, TURN};
use crate::twin::by_value::roots::gives_way;
use crate::twin::by_value::tables::{all_totals, clear_range, fill_gaps, fill_prices};

// The first and the last place at which an hour clears, and the place of its least gap.
#[derive(Clone, Copy)]
pub struct Range {
    pub first: usize,
    pub last: usize,
    pub turn: usize,
}

// The same of each hour.
#[derive(Clone, Copy)]
pub struct Ranges {
    pub first: [u32; HOURS],
    pub last: [u32; HOURS],
    pub turn: [u32; HOURS],
}

// The price tables of the hours, row after row: of each the places that the blocks can reach, up to most, and the one above it. The others stay as they were.
pub fn fill_tables(steps: &DaySteps, off: [u32; HOURS], most: [u32; HOURS], unit_prices: &mut [u32])
{
    let width = unit_prices.len() / HOURS;
    for h in 0..HOURS {
        let from = h * width;
        let to = from + (most[h] as usize) + LAST_AND_ABOVE;
        fill_prices(&steps.hour(h), off[h], &mut unit_prices[from..to]);
    }
}

// The places at which an hour clears, of those up to most, and its gaps there at a price. The range has the place off: there N is 0.
fn fill_hour(
    steps: &HourSteps,
    off: u32,
    most: u32,
    price: u32,
    row: &[u32],
    gap: &mut [u32],
) -> Range
{
    let all = all_totals(steps);
    let range = clear_range(all.buys, all.sells, off, most as usize);
    let turn = fill_gaps(row, price, range.first, range.last, gap);
    Range {
        first: range.first,
        last: range.last,
        turn,
    }
}

// The hours' ranges, and their gaps at the prices root, row after row.
pub fn fill_ranges(
    steps: &DaySteps,
    off: [u32; HOURS],
    most: [u32; HOURS],
    root: [u32; HOURS],
    unit_prices: &[u32],
    gap: &mut [u32],
) -> Ranges
{
    let width = gap.len() / HOURS;
    let mut first = [0; HOURS];
    let mut last = [0; HOURS];
    let mut turn = [0; HOURS];
    for h in 0..HOURS {
        let from = h * width;
        let to = from + (most[h] as usize) + LAST_AND_ABOVE;
        let range = fill_hour(
            &steps.hour(h),
            off[h],
            most[h],
            root[h],
            &unit_prices[from..to],
            &mut gap[from..to],
        );
        first[h] = range.first as u32;
        last[h] = range.last as u32;
        turn[h] = range.turn as u32;
    }
    Ranges { first, last, turn }
}

// The hours' three columns in one list, how often hour 3 counts, and whether prices can give way.
pub fn joined(
    first: [u32; HOURS],
    last: [u32; HOURS],
    turn: [u32; HOURS],
    often: u32,
    edition: u8,
) -> [u32; HOUR_LIST]
{
    let mut r = [0; HOUR_LIST];
    r[CHANGE] = often;
    r[SHIFTS] = u32::from(gives_way(edition));
    for h in 0..HOURS {
        r[h] = first[h];
        r[LAST + h] = last[h];
        r[TURN + h] = turn[h];
    }
    r
}
