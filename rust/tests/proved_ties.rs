//! The proved clearing on books in which many sets tie, of all editions and days, against this
//! package, byte for byte: of sets that are as good the published one is settled by the tie
//! rule, in whatever order the search decides the blocks. Compiled with the feature `proved`
//! only.
//!
//! The environment variable BOOKS raises the count (at least 20000).

mod compared;
mod proved_texts;

use auction_listing::books::{count, tied_book_on, tied_orders_on, Dice, DAYS_AND_EDITIONS};
use auction_listing::paper::{self, is_better, Published};
use compared::{compare_accepted, compare_any, Named};

const LEAST_BOOKS: u64 = 20_000;
/// Of so many books the sets that tie are counted in one.
const COUNTED: u64 = 20;

/// Books of the seeds, all days and editions in turn, with their names.
fn tied_books(seeds: impl Iterator<Item = u64>) -> impl Iterator<Item = Named> {
    seeds.map(|seed| {
        let (day, edition) = DAYS_AND_EDITIONS[seed as usize % DAYS_AND_EDITIONS.len()];
        let name = format!("tied_book_on({day}, {edition}, {seed})");
        (name, tied_book_on(day, edition, seed))
    })
}

/// Two threads, each with half of the books.
#[test]
fn tied_books_clear_as_the_listing_of_all_sets() {
    compare_accepted(tied_books((0..count("BOOKS", LEAST_BOOKS)).step_by(2)));
}

#[test]
fn other_tied_books_clear_as_the_listing_of_all_sets() {
    compare_accepted(tied_books((1..count("BOOKS", LEAST_BOOKS)).step_by(2)));
}

/// With a byte of an order changed: a block or a step beside the others, or refused.
#[test]
fn changed_books_agree() {
    let changed = (0..count("BOOKS", 2_000)).map(|seed| {
        let mut dice = Dice::new(seed);
        let (day, edition) = dice.pick(&DAYS_AND_EDITIONS);
        let mut book = tied_orders_on(day, edition, &mut dice).book();
        let record = 16 * dice.between(1, (book.len() / 16 - 1) as u32) as usize;
        book[record + dice.pick(&[1, 10, 13, 15])] = dice.bits() as u8 % 64;
        (format!("changed book {seed}"), book)
    });
    compare_any(changed).has_each([0, 4, 7], 10);
}

/// The lawful sets beside the published one that are as good, none of which the tie rule
/// prefers.
fn ties_of(name: &str, book: &[u8]) -> usize {
    let accepted = paper::read(book).expect("accepted");
    let mut result = vec![0x55; paper::result_length(accepted.record_count)];
    assert_eq!(auction::clear_into(book, &mut result), Ok(()), "{name}");
    let published = Published::from_bytes(&result);
    let (welfare, set) = (i128::from(published.welfare), published.set(&accepted));
    let others = (0..1u32 << accepted.blocks.len())
        .filter(|&other| other != set && paper::holds_parents(&accepted, other))
        .filter_map(|other| paper::outcome(&accepted, other));
    let mut ties = 0;
    for other in others {
        let better = is_better((other.welfare, other.set), (welfare, set));
        assert!(!better, "{name}: {:b} is better than {set:b}", other.set);
        ties += usize::from(other.welfare == welfare);
    }
    ties
}

/// Most of the books have ties, and many have several.
#[test]
fn the_published_set_is_the_best_of_those_that_tie() {
    let books = count("BOOKS", LEAST_BOOKS) / COUNTED;
    // A step that no number of days and editions divides, so that all of them are met.
    let ties: Vec<usize> = tied_books((0..books).map(|seed| seed * (COUNTED - 1)))
        .map(|(name, book)| ties_of(&name, &book))
        .collect();
    let with_more_than = |few: usize| ties.iter().filter(|&&ties| ties > few).count() as u64;
    let (tied, often) = (with_more_than(0), with_more_than(3));
    println!("{tied} of {books} books have ties, {often} more than three");
    assert!(tied > books / 3 && often > books / 10, "{tied} and {often} of {books}");
}
