// Written by `twin_source` from crates/records/src/layout.rt.
// Where a book's bytes have what. No code, no contract; the same numbers for the contracts stand in
// specs/Layout.antt.

// The bytes of a record: record k starts at byte 16 * k.
pub const RECORD_SIZE: u32 = 16;

// THE HEAD, record 0.
// Bytes 0 and 1: the record count R.
pub const COUNT_OFFSET: u32 = 0;

// Bytes 2-3: the first step.
pub const FIRST_STEP_OFFSET: u32 = 2;

// Bytes 4-5: the first block.
pub const FIRST_BLOCK_OFFSET: u32 = 4;

// Byte 6: the day's hours.
pub const DAY_HOURS_OFFSET: u32 = 6;

// Byte 7: the edition.
pub const EDITION_OFFSET: u32 = 7;

// Bytes 8-9: the first link; 0 in an edition without links.
pub const FIRST_LINK_OFFSET: u32 = 8;

// Bytes 10-15: 0.
pub const HEAD_REST_OFFSET: u32 = 10;

pub const HEAD_REST_SIZE: u16 = 6;

// A RECORD, counted from the byte where it starts, its kind.
// The kind of a step. The kinds are bytes of a book, compared with what a chain asks for; read records are the enum Record.
pub const STEP_KIND: u8 = 1;

// The kind of a block.
pub const BLOCK_KIND: u8 = 2;

// The kind of a link.
pub const LINK_KIND: u8 = 3;

// Byte 1: the side, 0 buy, 1 sell; 0 in a link.
pub const SIDE_OFFSET: u32 = 1;

// The largest number of a side.
pub const LAST_SIDE: u32 = 1;

// Bytes 2-3: the index of the following record.
pub const NEXT_OFFSET: u32 = 2;

// Bytes 4-5: the order number; in a link the child's block number.
pub const NUMBER_OFFSET: u32 = 4;

// Byte 6: a step's hour, 1 to 24; 0 in a block.
pub const HOUR_OFFSET: u32 = 6;

// Byte 7: the portfolio.
pub const PORTFOLIO_OFFSET: u32 = 7;

// A step, bytes 8-11: the price.
pub const STEP_PRICE_OFFSET: u32 = 8;

// A step, bytes 12-15: the quantity.
pub const STEP_QUANTITY_OFFSET: u32 = 12;

// A block, bytes 8-10: the hours.
pub const BLOCK_HOURS_OFFSET: u32 = 8;

// A block, bytes 11-13: the price.
pub const BLOCK_PRICE_OFFSET: u32 = 11;

// A block, bytes 14-15: the quantity.
pub const BLOCK_QUANTITY_OFFSET: u32 = 14;

// A link, bytes 6-7: the parent's block number.
pub const PARENT_OFFSET: u32 = 6;

// A link, bytes 8-15: 0.
pub const LINK_REST_OFFSET: u32 = 8;

pub const LINK_REST_SIZE: u16 = 8;

// The last hour of a day: a step's hour is 1 to 24, and the hours of a block are 24 bits.
pub const LAST_HOUR: u32 = 24;
