//! Document 02, P1: the proved calls on books of edition 2 against this package, byte
//! for byte: random ones, damaged ones, and those at the edges of both editions' limits.
//! Compiled with the feature `proved` only.
//!
//! The environment variable BOOKS raises the counts (at least 20000 each).

mod answers;
mod compared;
mod compared_pricing;
mod compared_reading;
mod proved_texts;

use auction_listing::books::{
    count, edition_2_day, edition_edges, pricing_case_of, reader_book_of, small_book_of,
    tiny_book_of,
};
use compared::{compare_accepted, compare_any, Named};
use compared_pricing::compare_pricing;
use compared_reading::{changes_of, compare_reading};

const LEAST_BOOKS: u64 = 20_000;

/// Books at the edges and damaged at random, each with its name.
fn damaged_books() -> impl Iterator<Item = Named> {
    let edges = edition_edges().into_iter().enumerate();
    let edges = edges.map(|(index, book)| (format!("edge {index} of the editions"), book));
    let damaged = (0..count("BOOKS", LEAST_BOOKS))
        .map(|seed| (format!("reader_book_of(2, {seed})"), reader_book_of(2, seed)));
    edges.chain(damaged)
}

#[test]
fn the_proved_reader_agrees() {
    let changed = changes_of("edition-2", &edition_2_day().book());
    compare_reading(damaged_books().chain(changed)).has_each(0..=6, 1);
}

#[test]
fn the_proved_pricing_agrees() {
    let case = |seed| (format!("pricing_case_of(2, {seed})"), pricing_case_of(2, seed));
    compare_pricing((0..count("BOOKS", LEAST_BOOKS)).map(case));
}

#[test]
fn books_clear_as_the_listing_of_all_sets() {
    let small = |seed| (format!("small_book_of(2, {seed})"), small_book_of(2, seed));
    let tiny = |seed| (format!("tiny_book_of(2, {seed})"), tiny_book_of(2, seed));
    compare_accepted((0..count("BOOKS", LEAST_BOOKS)).map(small).chain((0..500).map(tiny)));
}

#[test]
fn refused_books_and_buffers_leave_the_result_as_it_was() {
    compare_any(damaged_books()).has_each(0..=7, 1);
}

/// The same orders under the other edition: the same result, or edition 1's refusal.
#[test]
fn the_edition_alone_is_changed() {
    let in_the_other = |seed| {
        let mut book = small_book_of(1 + (seed % 2) as u32, seed);
        book[7] = 3 - book[7];
        (format!("seed {seed} in the other edition"), book)
    };
    let met = compare_any((0..count("BOOKS", LEAST_BOOKS)).map(in_the_other));
    met.has_each([0, 4, 6], 1);
}
