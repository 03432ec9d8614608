//! The proved pricing and the proved clearing against this package, byte for
//! byte. Compiled with the feature `proved` only.
//!
//! The environment variable BOOKS raises the counts (at least 20000 each).

mod answers;
mod compared;
mod compared_pricing;
mod proved_texts;

use auction_listing::books::{
    count, edge_books, pricing_case, reader_book, small_book, tiny_book, worked_days,
};
use compared::{compare_accepted, compare_any};
use compared_pricing::compare_pricing;

const LEAST_BOOKS: u64 = 20_000;

#[test]
fn the_proved_pricing_agrees() {
    let case = |seed| (format!("pricing_case({seed})"), pricing_case(seed));
    compare_pricing((0..count("BOOKS", LEAST_BOOKS)).map(case));
}

#[test]
fn the_worked_days_clear() {
    let days = worked_days().into_iter();
    compare_accepted(days.map(|(name, orders)| (name.to_string(), orders.book())));
}

#[test]
fn small_books_clear_as_the_listing_of_all_sets() {
    let book = |seed| (format!("small_book({seed})"), small_book(seed));
    compare_accepted((0..count("BOOKS", LEAST_BOOKS)).map(book));
}

#[test]
fn tiny_books_clear_as_the_best_contender() {
    compare_accepted((0..500).map(|seed| (format!("tiny_book({seed})"), tiny_book(seed))));
}

#[test]
fn refused_books_and_buffers_leave_the_result_as_it_was() {
    let edges = edge_books().into_iter().enumerate();
    let edges = edges.map(|(index, book)| (format!("edge book {index}"), book));
    let damaged = (0..count("BOOKS", LEAST_BOOKS))
        .map(|seed| (format!("reader_book({seed})"), reader_book(seed)));
    compare_any(edges.chain(damaged)).has_each(0..=7, 1);
}
