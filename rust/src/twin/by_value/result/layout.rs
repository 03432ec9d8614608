// Written by `twin_source` from crates/result/src/layout.rt.
// Where a result's bytes have what. No code, no contract; the same numbers for the contracts stand in specs/Layout.antt.
use crate::twin::by_value::orders::layout::{HOURS, STEP_PLACES};

// Bytes 0-7: the welfare, its higher half first.
pub const WELFARE_SIZE: usize = 8;

pub const HALF: usize = 4;

// The row of an hour: the price, then the traded quantity. As many bytes as the welfare, so hour h stands at byte 8 * h.
pub const HOUR_ROW: usize = 8;

pub const TRADED: usize = 4;

// The row of a record.
pub const RECORD_ROW: usize = 4;

// Record k stands at this byte and 4 * k: the head, record 0, has no row.
pub const RECORD_ROWS: usize = WELFARE_SIZE + HOURS * HOUR_ROW - RECORD_ROW;

// The most bytes of a result: that of as many records as a book may have.
pub const MOST_RESULT: usize = RECORD_ROWS + RECORD_ROW * STEP_PLACES;
