// Written by `twin_source` from crates/orders/src/layout.rt.
// How long the columns are. No code, no contract; the same numbers for the contracts stand in specs/Layout.antt.
use crate::twin::by_value::book::{MOST_BLOCKS, MOST_RECORDS};
use crate::twin::by_value::records::LAST_HOUR;

// The places of a column of steps: as many as a book may have records, so that every chain fits.
pub const STEP_PLACES: usize = MOST_RECORDS as usize;

// The places of a column of blocks: as many as a book may have.
pub const BLOCK_PLACES: usize = MOST_BLOCKS as usize;

// The hours of a day.
pub const HOURS: usize = LAST_HOUR as usize;

// Where the steps of each hour end: at h those of hours 1 to h, and at 0 none.
pub const ENDS: usize = HOURS + 1;

// The last hour, as a step's byte has it.
pub const LAST_HOUR_BYTE: u8 = LAST_HOUR as u8;
