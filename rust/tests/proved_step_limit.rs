//! Document 02, P8: the proved calls on books with about 256 steps of a portfolio in an hour
//! against this package, byte for byte. Compiled with the feature `proved` only.
//!
//! The environment variable BOOKS raises the counts (at least 2000 each).

mod answers;
mod compared;
mod compared_reading;
mod proved_texts;

use answers::hour_answer;
use auction_listing::books::{
    book_with_causes_on, count, own_causes, step_limit_book, step_limit_edges, steps_256, Dice,
    DAYS, DAYS_AND_EDITIONS,
};
use auction_listing::paper::{self, HourAnswer};
use compared::{compare_accepted, compare_any, Named};
use compared_reading::{changes_of, compare_reading};

const LEAST_BOOKS: u64 = 2_000;
const LIMITED: u32 = 4;

fn edges() -> impl Iterator<Item = Named> {
    let edges = step_limit_edges().into_iter().enumerate();
    edges.map(|(index, book)| (format!("edge {index} of the steps"), book))
}

/// Books about the limit, of each day and edition.
fn books() -> impl Iterator<Item = Named> {
    (0..count("BOOKS", LEAST_BOOKS)).map(|seed| {
        let (day, edition) = DAYS_AND_EDITIONS[seed as usize % DAYS_AND_EDITIONS.len()];
        let name = format!("step_limit_book({day}, {edition}, {seed})");
        (name, step_limit_book(day, edition, seed))
    })
}

/// One step too many beside each other cause.
fn two_causes() -> impl Iterator<Item = Named> {
    DAYS.into_iter().flat_map(|day| {
        own_causes(day, LIMITED).into_iter().flat_map(move |other| {
            (0..6).map(move |seed| {
                let name = format!("causes 11 and {other} on a day of {day} hours, seed {seed}");
                (name, book_with_causes_on(day, LIMITED, &[11, other], &mut Dice::new(seed)))
            })
        })
    })
}

#[test]
fn the_proved_reader_agrees() {
    let books = edges().chain(books()).chain(two_causes());
    compare_reading(books).has_each([0, 1, 2, 3, 4, 5, 6, 9, 10, 11], 1);
}

/// The hours and portfolios of a full book, changed a byte at a time.
#[test]
fn changes_of_a_full_book() {
    let changes = changes_of("steps_256", &steps_256().book()).into_iter();
    // Of each record the bytes of the hour and of the portfolio, and all of the head.
    let some = changes.enumerate().filter(|(index, _)| {
        let byte = index / 255;
        byte < 16 || (byte < 16 * 12 && [6, 7].contains(&(byte % 16)))
    });
    compare_reading(some.map(|(_, named)| named)).has_each([0, 2, 3, 4, 5], 1);
}

/// As many steps as there may be are cleared, in each edition.
#[test]
fn full_hours_clear() {
    let in_edition =
        |edition: u32| (format!("edition {edition}"), steps_256().of_edition(edition).book());
    compare_accepted((1..=LIMITED).map(in_edition));
}

#[test]
fn books_clear_or_are_refused_as_by_the_listing() {
    let some = books().take(count("BOOKS", LEAST_BOOKS) as usize / 4);
    compare_any(edges().step_by(5).chain(some).chain(two_causes())).has_each([0, 7, 11], 1);
}

/// Pricing, too, before its own refusal.
#[test]
fn the_proved_pricing_agrees() {
    let mut refused = 0;
    for (name, book) in edges().step_by(3).chain(two_causes()) {
        for (set, hour) in [(0, 1), (0, 24), (0, 25), (u32::MAX, 1)] {
            let expected = paper::price_hour(&book, set, hour);
            assert_eq!(hour_answer(auction::price(&book, set, hour)), expected, "{name}");
            refused += u64::from(expected == HourAnswer::Refused(11));
        }
    }
    assert!(refused >= 100, "{refused}");
}
