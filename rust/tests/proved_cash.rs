//! Document 02, P3: the proved cash sheet against this package, byte for byte: random books
//! of every day and edition whose portfolios trade on both sides, books with all 255
//! portfolios, damaged books. `proved_editions`, `proved_days` and `proved_links` compare the
//! cash sheets of their books too, `proved_large` those of large ones. Compiled with the
//! feature `proved` only.
//!
//! The environment variable BOOKS raises the counts (at least 6000 books, 90 with all
//! portfolios, 3000 damaged ones).

mod compared;
mod proved_texts;
mod room;

use auction_listing::books::{
    cash_book_on, cash_days, cash_orders_on, count, crowded_book_on, every_byte_changed,
    reader_book_on, worked_days, Dice, Orders, DAYS, DAYS_AND_EDITIONS,
};
use auction_listing::paper;
use compared::{compare_accepted, compare_any, Named};
use room::put_where_there_is_room;

/// What a generator makes of each seed, by turns of each day and edition.
fn made(
    books: u64,
    name: &'static str,
    on: fn(u32, u32, u64) -> Vec<u8>,
) -> impl Iterator<Item = Named> {
    (0..books).map(move |seed| {
        let (day, edition) = DAYS_AND_EDITIONS[seed as usize % DAYS_AND_EDITIONS.len()];
        (format!("{name}({day}, {edition}, {seed})"), on(day, edition, seed))
    })
}

/// The worked days and those of the cash sheet, each on a day of every length.
fn small_days() -> impl Iterator<Item = Named> {
    let days = worked_days().into_iter().chain(cash_days());
    days.flat_map(|(name, orders)| {
        DAYS.map(|day| (format!("{name}, {day} hours"), orders.clone().on_day_of(day).book()))
    })
}

#[test]
fn the_worked_days_have_their_cash_sheets() {
    compare_any(small_days()).has_each([0, 9], 1);
}

#[test]
fn books_have_the_cash_sheets_of_the_listing() {
    compare_accepted(made(count("BOOKS", 6_000), "cash_book_on", cash_book_on));
}

#[test]
fn books_with_all_portfolios() {
    compare_accepted(made(count("BOOKS", 90), "crowded_book_on", crowded_book_on));
}

#[test]
fn damaged_books() {
    let changed = cash_days().into_iter().flat_map(|(name, orders)| {
        let books: Vec<Vec<u8>> = every_byte_changed(&orders.book()).step_by(11).collect();
        let named = books.into_iter().enumerate();
        named.map(move |(index, book)| (format!("{name}, change {index} of a byte"), book))
    });
    let damaged = made(count("BOOKS", 3_000), "reader_book_on", reader_book_on);
    compare_any(changed.chain(damaged)).has_each([0, 1, 2, 3, 4, 5, 6, 7, 9, 10], 1);
}

/// The orders of a book with the day and the edition alone changed.
#[test]
fn the_day_and_the_edition_alone_are_changed() {
    let variants = |seed: u64| {
        let orders = cash_orders_on(25, 1, &mut Dice::new(seed));
        DAYS_AND_EDITIONS.map(|(day, edition)| {
            let book: Orders = orders.clone().on_day_of(day).of_edition(edition);
            (format!("seed {seed}, {day} hours, edition {edition}"), book.book())
        })
    };
    compare_any((0..count("BOOKS", 300)).flat_map(variants)).has_each([0, 7, 9], 1);
}

/// The sheet in buffers of its length, of less and of more.
#[test]
fn a_cash_sheet_without_room_is_not_written() {
    for book in small_days().map(|(_, book)| book).chain([Vec::new(), vec![0; 16]]) {
        let expected = paper::cash(&book);
        let sizes = (0..=expected.len() + 1).chain([22_564, 30_000]);
        put_where_there_is_room(auction::cash_into, &book, &expected, sizes);
    }
    let crowded = crowded_book_on(25, 2, 0);
    let expected = paper::cash(&crowded);
    let sizes = [0, 36, 781, expected.len() - 1, expected.len(), expected.len() + 1, 22_564];
    put_where_there_is_room(auction::cash_into, &crowded, &expected, sizes);
}
