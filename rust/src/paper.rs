//! Documents 01 and 02, implemented by their own words.
//!
//! - `read`: any bytes to a book or its first refusal, 1 to 6 or 9 to 11, by the limits of its
//!   edition and the hours of its day;
//! - `hour`: the price of one hour under a set of blocks, or refusal 8, and what its steps
//!   get there;
//! - `shares`: what each step at the price gets of its side's amount;
//! - `shift`: where a set's prices stand between L and H;
//! - `day`: lawful sets that hold their blocks' parents, welfare, the published result, or
//!   refusal 7;
//! - `contenders`: demand 3 taken literally, for tiny books;
//! - `sheet`: what the program auction-print writes;
//! - `families`: what the program family-print writes;
//! - `cash`: what the program cash-print writes;
//! - `texts`: all of these, from one clearing;
//! - `uncertain`: the least and the greatest price of an hour whose quantities are uncertain, or
//!   refusal 17.

mod cash;
mod contenders;
mod day;
mod families;
mod hour;
mod read;
mod shares;
mod sheet;
mod shift;
mod texts;
mod uncertain;

pub use cash::{cash, cash_of};
pub use contenders::{contenders, for_each_contender, BestContender, Contender};
pub use day::{
    best_outcome, clear, holds_parents, is_better, keeps_limit, net_block_sales, outcome,
    result_bytes, result_length, result_length_for, tie_goes_to, Outcome, Published,
};
pub use families::{families, families_of, root_of};
pub use hour::{
    beyond_totals, candidates, clears, executed, price_hour, price_hour_by_scan, scan, HourAnswer,
    DOES_NOT_CLEAR, HIGHEST_PRICE, LOWEST_PRICE,
};
pub use read::{
    limits, passing_hours, read, Block, Book, Limits, Link, Side, Step, CHANGED_HOUR, HOURS,
};
pub use shares::{fair_shares, SharingRule};
pub use sheet::{sheet, sheet_of};
pub use shift::{prices_at_shift, shift_of, shifted, shifts, Ends, MIDDLE_SHIFT};
pub use texts::{texts, Texts};
pub use uncertain::{
    price_of, price_range, price_range_by_choices, range_part, read_list, PriceRange, UncertainStep,
};
