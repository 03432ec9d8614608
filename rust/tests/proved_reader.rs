//! The proved reader against the reader of this package, on damaged, random and
//! accepted books. Compiled with the feature `proved` only.
//!
//! The environment variable BOOKS raises the count of books (at least 100000).

mod compared_reading;

use auction_listing::books::{count, edge_books, reader_book, worked_days};
use compared_reading::{changes_of, compare_reading};

const LEAST_BOOKS: u64 = 100_000;

#[test]
fn the_proved_reader_agrees() {
    let worked = worked_days().into_iter().map(|(name, orders)| (name.to_string(), orders.book()));
    // Every byte of a head, of steps and of blocks.
    let changed = worked.clone().filter(|(name, _)| name == "S6");
    let changed = changed.flat_map(|(name, book)| changes_of(&name, &book));
    let edges = edge_books().into_iter().enumerate();
    let edges = edges.map(|(index, book)| (format!("edge book {index}"), book));
    let damaged = (0..).map(|seed| (format!("reader_book({seed})"), reader_book(seed)));
    let books = worked.chain(changed).chain(edges).chain(damaged);
    compare_reading(books.take(count("BOOKS", LEAST_BOOKS) as usize)).has_each(0..=6, 1);
}
