//! Books to try an auction on. Everything is deterministic: the same seed gives
//! the same book on every machine.
//!
//! - `builder`: orders to the bytes of a book;
//! - `dice`: a small random generator;
//! - `random`: accepted books of many kinds;
//! - `damage`: refused books, by cause or by accident;
//! - `days`: both kinds for days of 23, 24 and 25 hours;
//! - `links`: links among the blocks of edition 3, right and wrong;
//! - `portfolios`: books for the cash sheet, with few portfolios or all of them;
//! - `lists`: lists of steps whose quantities are uncertain, right and wrong;
//! - `shares`: books with large groups of steps at one price;
//! - `shifts`: books in which prices give way;
//! - `ties`: books in which many sets are as good as each other;
//! - `step_limit`: books with as many steps of a portfolio in an hour as there may be;
//! - `families`: large books for the benchmark;
//! - `worst`: the worst families of large books that are known;
//! - `expected`: what is expected of the books in `bench-books`;
//! - `worked`: the days of documents 01 and 02 that are checked by hand;
//! - `count`: how many books a test looks at, and what it meets among them.

mod builder;
mod count;
mod damage;
mod days;
mod dice;
mod expected;
mod families;
mod links;
mod lists;
mod portfolios;
mod random;
mod shares;
mod shifts;
mod step_limit;
mod ties;
mod worked;
mod worst;

pub use builder::{hour_bits, hours_in, BlockOrder, LinkOrder, Orders, StepOrder};
pub use count::{count, raised, Met};
pub use damage::{
    book_with_causes, book_with_causes_of, edge_books, edition_edges, every_byte_changed,
    reader_book, reader_book_of, SOME_EDITIONS,
};
pub use days::{
    book_with_causes_on, day_edges, own_causes, pricing_case_on, reader_book_on, small_book_on,
    small_orders_on, tiny_book_on, DAYS, DAYS_AND_EDITIONS, OWN_CAUSES,
};
pub use dice::Dice;
pub use expected::Expected;
pub use families::{full_day, full_day_of, linked_day, Family, FAMILIES};
pub use links::{link_edges, Shape};
pub use lists::{
    damaged_list, list_edges, list_of, random_list, tiny_list, ListEdge, ListFamily, ListStep, BUY,
    LIST_FAMILIES, SELL,
};
pub use portfolios::{cash_book_on, cash_orders_on, crowded_book_on};
pub use random::{
    pricing_case, pricing_case_of, small_book, small_book_of, small_orders, small_orders_of,
    tiny_book, tiny_book_of,
};
pub use shares::{shared_book_on, shared_orders_on};
pub use shifts::{shift_edges, shifted_book_on, shifted_orders_on, tiny_shifted_book_on};
pub use step_limit::{step_limit_book, step_limit_edges, MOST_STEPS};
pub use ties::{tied_book_on, tied_orders_on};
pub use worked::{
    block_beside_the_day, cash_days, day_of_23_hours, day_of_25_hours, edition_2_day, fair_shares,
    head_alone, link_upwards, link_without_parent, linked_days, opposite_blocks, shifted_days,
    step_beside_the_day, steps_256, thirty_two_blocks, worked_days, CHAIN_OF_32_TAKEN,
    EDITION_2_BLOCKS, FAIR_SHARES_ROWS, THIRTY_TWO_BLOCKS_TAKEN,
};
pub use worst::WORST_FAMILIES;
