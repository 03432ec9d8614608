//! Document 02, P5: the proved clearing on books with large groups of steps at one price, on
//! both sides at once, of all editions and days, against this package, byte for byte.
//! Compiled with the feature `proved` only.
//!
//! The environment variable BOOKS raises the counts.

mod answers;
mod compared;
mod compared_pricing;
mod proved_texts;

use auction_listing::books::{
    count, fair_shares, shared_book_on, shared_orders_on, worked_days, Dice, DAYS_AND_EDITIONS,
    FAIR_SHARES_ROWS, FAMILIES,
};
use auction_listing::paper::{self, Published};
use compared::{compare_accepted, compare_any, Named};
use compared_pricing::compare_pricing;

/// Books of the seeds, all days and editions in turn, with their names.
fn shared_books(books: u64) -> impl Iterator<Item = Named> {
    (0..books).map(|seed| {
        let (day, edition) = DAYS_AND_EDITIONS[seed as usize % DAYS_AND_EDITIONS.len()];
        let name = format!("shared_book_on({day}, {edition}, {seed})");
        (name, shared_book_on(day, edition, seed))
    })
}

#[test]
fn books_with_groups_at_one_price_clear_as_the_listing_of_all_sets() {
    compare_accepted(shared_books(count("BOOKS", 4_000)));
}

/// A book under a set of its blocks, now and then of others, in an hour.
#[test]
fn crowded_hours_are_priced_as_by_the_listing() {
    let cases = shared_books(count("BOOKS", 4_000)).enumerate().map(|(seed, (name, book))| {
        let mut dice = Dice::new(seed as u64);
        let accepted = paper::read(&book).expect("accepted");
        let (blocks, step) = (accepted.blocks.len(), accepted.steps[0]);
        let set = dice.bits() as u32 % (1 << blocks.max(1));
        let hour = if dice.once_in(8) { dice.between(1, 26) } else { step.hour };
        (name, (book, set, hour))
    });
    compare_pricing(cases);
}

/// With a byte of an order changed: other quantities, prices, sides and hours, or refused.
#[test]
fn changed_books_agree() {
    let changed = (0..count("BOOKS", 2_000)).map(|seed| {
        let mut dice = Dice::new(seed);
        let (day, edition) = dice.pick(&DAYS_AND_EDITIONS);
        let mut book = shared_orders_on(day, edition, &mut dice).book();
        let record = 16 * dice.between(1, (book.len() / 16 - 1) as u32) as usize;
        book[record + dice.pick(&[1, 6, 11, 14, 15])] = dice.bits() as u8 % 64;
        (format!("changed book {seed}"), book)
    });
    compare_any(changed).has_each([0, 4, 7], 10);
}

fn rows_of(book: &[u8]) -> Vec<u32> {
    let mut result = vec![0x55; paper::result_length(book.len() / 16)];
    assert_eq!(auction::clear_into(book, &mut result), Ok(()));
    Published::from_bytes(&result).rows
}

/// As figures written down by hand.
#[test]
fn s10_and_the_day_of_fair_shares() {
    let (_, s10) = worked_days().into_iter().find(|(name, _)| *name == "S10").expect("S10");
    assert_eq!(rows_of(&s10.book()), [50, 50, 100]);
    assert_eq!(rows_of(&fair_shares().book()), FAIR_SHARES_ROWS);
}

/// The largest groups: 2,014 sells of one hour at one price. The set is that of the call; its
/// prices and what the steps then get are the paper's.
#[test]
fn groups_of_2014_steps() {
    let family = FAMILIES.iter().find(|family| family.name == "one price").expect("a family");
    for seed in 0..count("BOOKS", 20) {
        let book = (family.book)(seed, family.usual_blocks);
        let accepted = paper::read(&book).expect("accepted");
        let mut result = vec![0x55; paper::result_length(accepted.record_count)];
        assert_eq!(auction::clear_into(&book, &mut result), Ok(()), "seed {seed}");
        let set = Published::from_bytes(&result).set(&accepted);
        let outcome = paper::outcome(&accepted, set).expect("a lawful set");
        assert!(paper::result_bytes(&accepted, &outcome) == result, "one price, seed {seed}");
    }
}
