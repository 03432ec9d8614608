//! Document 02, P2: the proved calls on books of days of 23, 24 and 25 hours and of all
//! editions against this package, byte for byte: random ones, damaged ones, and those at
//! the edges. Compiled with the feature `proved` only.
//!
//! The environment variable BOOKS raises the counts (at least 20000 each).

mod answers;
mod compared;
mod compared_pricing;
mod compared_reading;
mod proved_texts;

use auction_listing::books::{
    count, day_edges, day_of_23_hours, day_of_25_hours, pricing_case_on, reader_book_on,
    small_book_on, tiny_book_on, DAYS, DAYS_AND_EDITIONS,
};
use auction_listing::paper;
use compared::{compare_accepted, compare_any, Named};
use compared_pricing::{compare_pricing, Case};
use compared_reading::{changes_of, compare_reading};

const LEAST_BOOKS: u64 = 20_000;
/// Of so many books one is priced in all hours under all sets.
const PRICED_IN_FULL: u64 = 60;

/// What a generator makes of each seed, all days and editions in turn, with its name.
fn made<T>(
    books: u64,
    name: &'static str,
    generator: fn(u32, u32, u64) -> T,
) -> impl Iterator<Item = (String, T)> {
    (0..books).map(move |seed| {
        let (day, edition) = DAYS_AND_EDITIONS[seed as usize % DAYS_AND_EDITIONS.len()];
        (format!("{name}({day}, {edition}, {seed})"), generator(day, edition, seed))
    })
}

fn small_books(books: u64) -> impl Iterator<Item = Named> {
    made(books, "small_book_on", small_book_on)
}

/// Books at the edges and damaged at random, each with its name.
fn damaged_books() -> impl Iterator<Item = Named> {
    let edges = day_edges().into_iter().enumerate();
    let edges = edges.map(|(index, book)| (format!("edge {index} of the days"), book));
    edges.chain(made(count("BOOKS", LEAST_BOOKS), "reader_book_on", reader_book_on))
}

#[test]
fn the_proved_reader_agrees() {
    let days = [("day-23", day_of_23_hours()), ("day-25", day_of_25_hours())];
    let changed = days.iter().flat_map(|(name, orders)| changes_of(name, &orders.book()));
    compare_reading(damaged_books().chain(changed)).has_each([0, 1, 2, 3, 4, 5, 6, 9, 10], 1);
}

#[test]
fn the_proved_pricing_agrees() {
    compare_pricing(made(count("BOOKS", LEAST_BOOKS), "pricing_case_on", pricing_case_on));
}

/// Every hour under every set of small books, and those that are not there.
#[test]
fn all_hours_and_sets_are_priced_as_by_the_listing() {
    let books = small_books(count("BOOKS", LEAST_BOOKS) / PRICED_IN_FULL);
    let few_blocks = |book: &[u8]| paper::read(book).expect("accepted").blocks.len() as u32 <= 6;
    compare_pricing(books.filter(|(_, book)| few_blocks(book)).flat_map(all_cases));
}

fn all_cases((name, book): Named) -> impl Iterator<Item = Case> {
    let sets = 1 << paper::read(&book).expect("accepted").blocks.len();
    let cases = (0..=sets).flat_map(|set| (0..=25).map(move |hour| (set, hour)));
    cases.map(move |(set, hour)| {
        (format!("{name}, set {set:b}, hour {hour}"), (book.clone(), set, hour))
    })
}

#[test]
fn books_clear_as_the_listing_of_all_sets() {
    compare_accepted(small_books(count("BOOKS", LEAST_BOOKS)));
    compare_accepted(made(600, "tiny_book_on", tiny_book_on));
}

#[test]
fn refused_books_and_buffers_leave_the_result_as_it_was() {
    compare_any(damaged_books()).has_each([0, 1, 2, 3, 4, 5, 6, 7, 9, 10], 1);
}

/// The same orders on the other days: another result, or refusal 9.
#[test]
fn the_day_alone_is_changed() {
    let on_the_others = |(name, book): Named| {
        let with = move |day: u32| {
            let mut changed = book.clone();
            changed[6] = day as u8;
            (format!("{name} on a day of {day} hours"), changed)
        };
        DAYS.into_iter().chain([22, 26]).map(with).collect::<Vec<Named>>()
    };
    let books = small_books(count("BOOKS", LEAST_BOOKS) / DAYS.len() as u64);
    compare_any(books.flat_map(on_the_others)).has_each([0, 2, 7, 9], 1);
}
