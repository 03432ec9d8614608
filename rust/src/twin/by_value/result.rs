// Written by `twin_source` from crates/result/src/lib.rt.
// The result of a clearing: the result's bytes: 8 bytes welfare, the price and the traded quantity of each hour, the row of each record.
// Numbers stand high byte first. What a clearing promises of them is in specs/Promise. Assumes nothing.

mod layout; // where a result's bytes have what
mod numbers; // the numbers of a result read again

use crate::twin::by_value::result::layout::{HOUR_ROW, TRADED, WELFARE_SIZE};
pub use layout::{MOST_RESULT, RECORD_ROW, RECORD_ROWS};
pub use numbers::{price_in, row_in, traded_in, welfare_in};
use crate::twin::by_value::orders::layout::{BLOCK_PLACES, HOURS, STEP_PLACES};

// `bytes` from `at` on.
fn put(res: &mut [u8], at: usize, bytes: &[u8])
{
    res[at..at + bytes.len()].copy_from_slice(bytes);
}

// The rows of the hours: hour h + 1 from byte 8 + 8 * h on.
fn put_hours(res: &mut [u8], prices: [u32; HOURS], quantities: [u32; HOURS])
{
    for h in 0..HOURS {
        let row = WELFARE_SIZE + HOUR_ROW * h;
        put(res, row, &prices[h].to_be_bytes());
        put(res, row + TRADED, &quantities[h].to_be_bytes());
    }
}

// The rows of the records 1 to count - 1: record k from byte 196 + 4 * k on.
fn put_records(res: &mut [u8], count: usize, rows: &[u32; STEP_PLACES])
{
    for k in 1..count {
        put(res, RECORD_ROWS + RECORD_ROW * k, &rows[k].to_be_bytes());
    }
}

// The whole result of a book of `count` records, the head's among them.
pub fn write_result(
    res: &mut [u8],
    count: usize,
    welfare: u64,
    prices: [u32; HOURS],
    quantities: [u32; HOURS],
    rows: &[u32; STEP_PLACES],
)
{
    put(res, 0, &welfare.to_be_bytes());
    put_hours(res, prices, quantities);
    put_records(res, count, rows);
}

// The rows with each value at its record, from the last to the first, so that a record's first value stays.
pub fn with_rows(rows: [u32; STEP_PLACES], records: &[u16], values: &[u32]) -> [u32; STEP_PLACES]
{
    let mut filled = rows;
    for i in (0..records.len()).rev() {
        let k = usize::from(records[i]);
        if k < STEP_PLACES {
            filled[k] = values[i];
        }
    }
    filled
}

// The row of each block: its quantity if its bit of the set is 1, else 0.
pub fn block_values(count: usize, quantities: &[u32], set: u32) -> [u32; BLOCK_PLACES]
{
    let mut values = [0; BLOCK_PLACES];
    for i in 0..count {
        if (set >> i) % 2 == 1 {
            values[i] = quantities[i];
        }
    }
    values
}
