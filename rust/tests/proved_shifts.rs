//! Document 02, P7: the proved calls on books of edition 4 against this package, byte for
//! byte: random ones of every day whose blocks trade with each other, damaged ones, those at
//! the edges of a shift, and large ones. Compiled with the feature `proved` only.
//!
//! The environment variable BOOKS raises the counts (at least 8000 each, of large books 3).

mod answers;
mod compared;
mod compared_pricing;
mod compared_reading;
mod proved_texts;

use auction_listing::books::{
    book_with_causes_on, count, own_causes, pricing_case_of, pricing_case_on, reader_book_of,
    reader_book_on, shift_edges, shifted_book_on, shifted_days, shifted_orders_on, small_book_of,
    small_book_on, tiny_shifted_book_on, Dice, Orders, DAYS, FAMILIES,
};
use auction_listing::paper::{self, is_better, Published, Texts};
use compared::{compare_accepted, compare_any, Named};
use compared_pricing::{compare_pricing, Case};
use compared_reading::{changes_of, compare_reading};
use proved_texts::proved_texts;

const LEAST_BOOKS: u64 = 8_000;
const SHIFTED: u32 = 4;
/// Of so many books one is priced in all hours under all sets.
const PRICED_IN_FULL: u64 = 60;

/// What a generator makes of each seed, of all days in turn, with its name.
fn made<T>(
    books: u64,
    name: &'static str,
    on: fn(u32, u32, u64) -> T,
) -> impl Iterator<Item = (String, T)> {
    (0..books).map(move |seed| {
        let day = DAYS[seed as usize % DAYS.len()];
        (format!("{name}({day}, {SHIFTED}, {seed})"), on(day, SHIFTED, seed))
    })
}

fn shifted_books(books: u64) -> impl Iterator<Item = Named> {
    made(books, "shifted_book_on", shifted_book_on)
}

fn edges() -> impl Iterator<Item = Named> {
    let edges = shift_edges().into_iter().enumerate();
    edges.map(|(index, book)| (format!("edge {index} of the shift"), book))
}

fn days_by_hand() -> Vec<Named> {
    let days = shifted_days().into_iter();
    days.map(|(name, orders)| (name.to_string(), orders.book())).collect()
}

/// Books damaged at random, by two causes at once among them, each with its name.
fn damaged_books() -> impl Iterator<Item = Named> {
    let books = count("BOOKS", LEAST_BOOKS);
    let of = |seed| (format!("reader_book_of({SHIFTED}, {seed})"), reader_book_of(SHIFTED, seed));
    let damaged = (0..books / 2).map(of);
    damaged.chain(made(books / 2, "reader_book_on", reader_book_on)).chain(two_causes())
}

/// Each two of the causes on each day.
fn two_causes() -> impl Iterator<Item = Named> {
    DAYS.into_iter().flat_map(|day| {
        let causes = own_causes(day, SHIFTED);
        let pairs: Vec<[u8; 2]> =
            causes.iter().flat_map(|&one| causes.iter().map(move |&other| [one, other])).collect();
        pairs.into_iter().flat_map(move |pair| {
            (0..8).map(move |seed| {
                let name = format!("causes {pair:?} on a day of {day} hours, seed {seed}");
                (name, book_with_causes_on(day, SHIFTED, &pair, &mut Dice::new(seed)))
            })
        })
    })
}

#[test]
fn the_proved_reader_agrees() {
    let changed = days_by_hand().into_iter().flat_map(|(name, book)| changes_of(&name, &book));
    let books = damaged_books().chain(edges()).chain(changed);
    compare_reading(books).has_each([0, 1, 2, 3, 4, 5, 6, 9, 10], 1);
}

/// A single hour has the middle price, under any set.
#[test]
fn the_proved_pricing_agrees() {
    let books = count("BOOKS", LEAST_BOOKS);
    let of = |seed| (format!("pricing_case_of({SHIFTED}, {seed})"), pricing_case_of(SHIFTED, seed));
    compare_pricing((0..books / 2).map(of));
    compare_pricing(made(books / 2, "pricing_case_on", pricing_case_on));
    let full = shifted_books(books / PRICED_IN_FULL).filter(|(_, book)| has_few_blocks(book));
    compare_pricing(full.flat_map(all_cases));
}

fn has_few_blocks(book: &[u8]) -> bool {
    paper::read(book).expect("accepted").blocks.len() <= 5
}

/// Every set and the first that is not there, in every hour and those that are not there.
fn all_cases((name, book): Named) -> impl Iterator<Item = Case> {
    let sets = 1 << paper::read(&book).expect("accepted").blocks.len();
    let cases = (0..=sets).flat_map(|set| (0..=25).map(move |hour| (set, hour)));
    cases.map(move |(set, hour)| {
        (format!("{name}, set {set:b}, hour {hour}"), (book.clone(), set, hour))
    })
}

#[test]
fn the_days_by_hand_clear() {
    compare_accepted(days_by_hand().into_iter());
}

#[test]
fn books_clear_as_the_listing_of_all_sets() {
    compare_accepted(shifted_books(count("BOOKS", LEAST_BOOKS)));
    compare_accepted(made(800, "tiny_shifted_book_on", tiny_shifted_book_on));
    compare_accepted(edges());
}

/// Books that are not made to give way, and do now and then.
#[test]
fn other_books_clear_as_the_listing_of_all_sets() {
    let books = count("BOOKS", LEAST_BOOKS) / 2;
    compare_accepted(made(books, "small_book_on", small_book_on));
    let of = |seed| (format!("small_book_of({SHIFTED}, {seed})"), small_book_of(SHIFTED, seed));
    compare_accepted((0..books).map(of));
}

#[test]
fn refused_books_and_buffers_leave_the_result_as_it_was() {
    compare_any(damaged_books()).has_each([0, 1, 2, 3, 4, 5, 6, 7, 9, 10], 1);
}

/// The same orders in each edition: up to edition 3 at the middle prices.
#[test]
fn the_edition_alone_is_changed() {
    let variants = |seed: u64| {
        let day = DAYS[seed as usize % DAYS.len()];
        let orders = shifted_orders_on(day, SHIFTED, &mut Dice::new(seed));
        let in_edition = move |edition| {
            let links = if edition < 3 { Vec::new() } else { orders.links.clone() };
            let changed = Orders { edition, links, ..orders.clone() };
            (format!("seed {seed} on a day of {day} hours in edition {edition}"), changed.book())
        };
        (1..=5).map(in_edition)
    };
    let books = (0..count("BOOKS", LEAST_BOOKS) / 5).flat_map(variants);
    compare_any(books).has_each([0, 2, 4, 6, 7], 1);
}

/// Large books whose sets are too many to list: the result is what the paper makes of its set,
/// so are the texts, and no set that differs in one or two blocks is better.
#[test]
fn large_books_of_edition_4() {
    for seed in 0..count("BOOKS", 3) {
        for family in FAMILIES.iter().filter(|family| family.name.starts_with("edition 4")) {
            let name = format!("{}, seed {seed}", family.name);
            let book = (family.book)(seed, family.quick_blocks);
            let accepted = paper::read(&book).expect("accepted");
            let mut result = vec![0x55; paper::result_length(accepted.record_count)];
            assert_eq!(auction::clear_into(&book, &mut result), Ok(()), "{name}");
            let set = Published::from_bytes(&result).set(&accepted);
            let best = paper::outcome(&accepted, set).expect("a lawful set");
            assert!(paper::result_bytes(&accepted, &best) == result, "{name}");
            assert_eq!(proved_texts(&book), Texts::of_result(&accepted, &result), "{name}");
            for other in neighbours(set, accepted.blocks.len()) {
                let better = paper::outcome(&accepted, other)
                    .is_some_and(|it| is_better((it.welfare, it.set), (best.welfare, best.set)));
                assert!(!better, "{name}: {other:b} is better than {set:b}");
            }
        }
    }
}

/// The sets that differ from one in a block, and in two neighbouring ones.
fn neighbours(set: u32, blocks: usize) -> impl Iterator<Item = u32> {
    (0..blocks).flat_map(move |position| {
        let (one, next) = (1u32 << position, (position + 1) % blocks);
        [set ^ one, set ^ one ^ (1 << next)]
    })
}
