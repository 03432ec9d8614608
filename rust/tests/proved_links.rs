//! Document 02, P6: the proved calls on books with links against this package, byte for
//! byte: random ones of every day, damaged ones, those at the edges of a link, and large
//! ones. Compiled with the feature `proved` only.
//!
//! The environment variable BOOKS raises the counts (at least 20000 each, of large books 3
//! and 20).

mod answers;
mod compared;
mod compared_pricing;
mod compared_reading;
mod proved_texts;
mod room;

use auction_listing::books::{
    count, link_edges, linked_day, linked_days, pricing_case_of, pricing_case_on, reader_book_of,
    reader_book_on, small_book_of, small_book_on, small_orders_of, tiny_book_of, tiny_book_on,
    Dice, Orders, Shape, DAYS, FAMILIES,
};
use auction_listing::paper::{self, is_better, Book, Outcome, Published, Texts};
use compared::{compare_accepted, compare_any, Named};
use compared_pricing::compare_pricing;
use compared_reading::{changes_of, compare_reading};
use proved_texts::proved_texts;
use room::put_where_there_is_room;

const LEAST_BOOKS: u64 = 20_000;
const LINKED: u32 = 3;

/// What two generators make of each seed by turns, of days of 24 hours and of all days, with
/// its name.
fn made<T>(
    books: u64,
    name: &'static str,
    of: fn(u32, u64) -> T,
    on: fn(u32, u32, u64) -> T,
) -> impl Iterator<Item = (String, T)> {
    (0..books).map(move |seed| match DAYS.get(seed as usize % 4) {
        Some(&day) => (format!("{name}_on({day}, {LINKED}, {seed})"), on(day, LINKED, seed)),
        None => (format!("{name}_of({LINKED}, {seed})"), of(LINKED, seed)),
    })
}

/// Books at the edges and damaged at random, each with its name.
fn damaged_books() -> impl Iterator<Item = Named> {
    let edges = link_edges().into_iter().enumerate();
    let edges = edges.map(|(index, book)| (format!("edge {index} of the links"), book));
    let books = count("BOOKS", LEAST_BOOKS);
    edges.chain(made(books, "reader_book", reader_book_of, reader_book_on))
}

#[test]
fn the_proved_reader_agrees() {
    let days = linked_days().into_iter().filter(|(name, _)| *name != "linked-chain");
    let changed = days.flat_map(|(name, orders)| changes_of(name, &orders.book()));
    let books = damaged_books().chain(changed);
    compare_reading(books).has_each([0, 1, 2, 3, 4, 5, 6, 9, 10], 1);
}

/// Under any set, whether it holds its blocks' parents or not.
#[test]
fn the_proved_pricing_agrees() {
    let books = count("BOOKS", LEAST_BOOKS);
    compare_pricing(made(books, "pricing_case", pricing_case_of, pricing_case_on));
}

#[test]
fn the_linked_days_clear() {
    let days = linked_days().into_iter().filter(|(name, _)| *name != "linked-chain");
    compare_accepted(days.map(|(name, orders)| (name.to_string(), orders.book())));
}

#[test]
fn books_clear_as_the_listing_of_all_sets() {
    compare_accepted(made(count("BOOKS", LEAST_BOOKS), "small_book", small_book_of, small_book_on));
    compare_accepted(made(800, "tiny_book", tiny_book_of, tiny_book_on));
}

#[test]
fn refused_books_and_buffers_leave_the_result_as_it_was() {
    compare_any(damaged_books()).has_each([0, 1, 2, 3, 4, 5, 6, 7, 9, 10], 1);
}

/// The same orders with and without their links, in each edition: with them editions 1 and 2
/// refuse their head.
#[test]
fn the_edition_and_the_links_alone_are_changed() {
    let variants = |seed: u64| {
        let orders = small_orders_of(LINKED, &mut Dice::new(seed));
        let unlinked = Orders { links: Vec::new(), ..orders.clone() };
        [orders, unlinked].into_iter().flat_map(move |orders| {
            (1..=4).map(move |edition| {
                let links = orders.links.len();
                let name = format!("seed {seed} in edition {edition} with {links} links");
                (name, orders.clone().of_edition(edition).book())
            })
        })
    };
    let books = (0..count("BOOKS", LEAST_BOOKS) / 8).flat_map(variants);
    compare_any(books).has_each([0, 2, 4, 6, 7], 1);
}

/// The report in buffers of its length, of less and of more.
#[test]
fn a_report_without_room_is_not_written() {
    let days = linked_days().into_iter().map(|(_, orders)| orders.book());
    for book in days.filter(|book| book.len() < 500).chain([Vec::new(), vec![0; 16]]) {
        let expected = paper::families(&book);
        let sizes = (0..=expected.len() + 1).chain([587, 1_000]);
        put_where_there_is_room(auction::families_into, &book, &expected, sizes);
    }
}

/// The sets that differ from one in a block: taken with all that it needs, or left out with
/// all that needs it.
fn neighbours(book: &Book, set: u32) -> Vec<u32> {
    let place = |number: u32| book.blocks.iter().position(|block| block.number == number);
    let bit = |number: u32| 1u32 << place(number).expect("a block of the book");
    let flipped = book.blocks.iter().map(|block| {
        let mut other = set ^ bit(block.number);
        if other & bit(block.number) != 0 {
            for link in book.links.iter().rev().filter(|link| link.child <= block.number) {
                if other & bit(link.child) != 0 {
                    other |= bit(link.parent);
                }
            }
        }
        // Along the links the children rise, so that what is dropped drops all below it.
        for link in &book.links {
            if other & bit(link.parent) == 0 {
                other &= !bit(link.child);
            }
        }
        other
    });
    flipped.collect()
}

/// The result of a large book, with its set: it is what the paper makes of that set, and the
/// texts are those of the result.
fn published(name: &str, book: &[u8]) -> (Book, Outcome) {
    let accepted = paper::read(book).expect("accepted");
    let mut result = vec![0x55; paper::result_length(accepted.record_count)];
    assert_eq!(auction::clear_into(book, &mut result), Ok(()), "{name}");
    let set = Published::from_bytes(&result).set(&accepted);
    let outcome = paper::outcome(&accepted, set).expect("a set that is allowed");
    assert!(paper::result_bytes(&accepted, &outcome) == result, "{name}");
    assert_eq!(proved_texts(book), Texts::of_result(&accepted, &result), "{name}");
    (accepted, outcome)
}

/// None of the sets is better than what is published.
fn none_is_better(name: &str, book: &Book, best: &Outcome, others: impl Iterator<Item = u32>) {
    for set in others {
        assert!(paper::holds_parents(book, set), "{name}: {set:b}");
        let better = paper::outcome(book, set)
            .is_some_and(|it| is_better((it.welfare, it.set), (best.welfare, best.set)));
        assert!(!better, "{name}: {set:b} is better than {:b}", best.set);
    }
}

/// Large books whose sets are too many to list: no set beside the published one is better.
#[test]
fn large_books_with_links() {
    for seed in 0..count("BOOKS", 3) {
        let linked = FAMILIES.iter().filter(|family| family.name.starts_with("linked"));
        let families = linked.map(|family| (family.name.into(), (family.book)(seed, 32)));
        let shapes = [Shape::Star, Shape::Tree, Shape::Any].into_iter();
        let shaped = shapes.map(|it| (format!("{it:?}"), linked_day(seed, 32, Some(it))));
        for (name, book) in families.chain(shaped) {
            let name = format!("{name}, seed {seed}");
            let (accepted, best) = published(&name, &book);
            let others = neighbours(&accepted, best.set).into_iter();
            none_is_better(&name, &accepted, &best, others);
        }
    }
}

/// Of a chain of 32 only 33 sets are allowed: the first blocks, however many.
#[test]
fn large_chains_clear_as_the_listing_of_all_allowed_sets() {
    for seed in 0..count("BOOKS", 20) {
        let name = format!("linked_day({seed}, 32, Some(Shape::Chain))");
        let (accepted, best) = published(&name, &linked_day(seed, 32, Some(Shape::Chain)));
        let others = (0..=32).map(|count| ((1u64 << count) - 1) as u32);
        none_is_better(&name, &accepted, &best, others);
    }
}
