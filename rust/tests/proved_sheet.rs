//! The proved sheet against this package, byte for byte. Compiled with the
//! feature `proved` only.
//!
//! The environment variable BOOKS raises the counts (at least 20000 each).

mod room;

use auction_listing::books::{count, edge_books, reader_book, small_book, worked_days};
use auction_listing::paper;
use room::put_where_there_is_room;

const LEAST_BOOKS: u64 = 20_000;

#[test]
fn the_worked_days_are_printed() {
    for (name, orders) in worked_days() {
        let book = orders.book();
        assert_eq!(auction::sheet(&book).as_bytes(), paper::sheet(&book), "{name}");
    }
}

#[test]
fn small_books_are_printed() {
    for seed in 0..count("BOOKS", LEAST_BOOKS) {
        let book = small_book(seed);
        assert_eq!(auction::sheet(&book).as_bytes(), paper::sheet(&book), "small_book({seed})");
    }
}

#[test]
fn refusals_are_printed() {
    let damaged = (0..count("BOOKS", LEAST_BOOKS)).map(reader_book);
    for (i, book) in edge_books().into_iter().chain(damaged).enumerate() {
        if paper::read(&book).is_ok_and(|accepted| accepted.blocks.len() > 9) {
            continue; // the listing of all sets takes too long
        }
        assert_eq!(auction::sheet(&book).as_bytes(), paper::sheet(&book), "book {i}");
    }
}

#[test]
fn a_sheet_without_room_is_not_written() {
    let book = small_book(0);
    let expected = paper::sheet(&book);
    let sizes = [0, 1, expected.len() - 1, expected.len(), expected.len() + 1];
    put_where_there_is_room(auction::sheet_into, &book, &expected, sizes);
}
