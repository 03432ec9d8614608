//! Ties, fuel and rivals. The search decides the blocks in an order of its own, and of sets that
//! are as good it must publish the one that comes first by the blocks' numbers; where its light
//! passes have spent their fuel, heavy ones drop branches that have a rival. Here the in-place
//! twin with the usual fuel and without any, against the listing on books in which many sets
//! tie, and against itself on large ones.
//!
//! The environment variable BOOKS raises the counts.

use auction_listing::books::{count, tied_book_on, Expected, DAYS_AND_EDITIONS, FAMILIES};
use auction_listing::paper::{self, result_length_for, Published};
use auction_listing::twin::in_place::{self, Settled, Workspace};
use std::path::Path;

/// A clearing of a book.
struct Run {
    result: Vec<u8>,
    settled: Settled,
}

fn run(name: &str, book: &[u8], space: &mut Workspace) -> Run {
    let mut result = vec![0x55; result_length_for(book)];
    assert_eq!(in_place::clear(book, &mut result, space), 0, "{name}: refused");
    Run { result, settled: space.settled() }
}

/// The twin with the usual fuel, and with none: by heavy passes alone.
struct Both {
    usual: Workspace,
    unfuelled: Workspace,
}

impl Both {
    fn new() -> Both {
        Both { usual: Workspace::default(), unfuelled: Workspace::with_fuel(0) }
    }

    /// The result of a book, which is the same by both; counts how they have found it.
    fn agreed(&mut self, name: &str, book: &[u8], met: &mut Counts) -> Vec<u8> {
        let one = run(name, book, &mut self.usual);
        let other = run(name, book, &mut self.unfuelled);
        assert!(one.result == other.result, "{name}: another result without fuel");
        assert!(other.settled.heavily, "{name}: found without fuel");
        met.add(one.settled, other.settled);
        one.result
    }
}

/// How the published sets of some books were found.
#[derive(Debug, Default)]
struct Counts {
    books: u64,
    /// By heavy passes, with the usual fuel.
    heavily: u64,
    /// After another set that is as good, with the usual fuel and with none.
    by_tie: [u64; 2],
    /// With a branch that was dropped for a rival, the same.
    rivalled: [u64; 2],
}

impl Counts {
    fn add(&mut self, usual: Settled, unfuelled: Settled) {
        self.books += 1;
        self.heavily += u64::from(usual.heavily);
        for (i, settled) in [usual, unfuelled].into_iter().enumerate() {
            self.by_tie[i] += u64::from(settled.by_tie);
            self.rivalled[i] += u64::from(settled.rivalled > 0);
        }
    }
}

/// The books of an edition, a fourth of all. Many of them are settled by a tie against the order
/// of deciding, by heavy passes, and with rivals.
fn compare_with_listing(edition: u32) {
    let (mut both, mut met) = (Both::new(), Counts::default());
    for seed in 0..count("BOOKS", 20_000) {
        let (day, of_seed) = DAYS_AND_EDITIONS[seed as usize % DAYS_AND_EDITIONS.len()];
        if of_seed == edition {
            let name = format!("tied_book_on({day}, {edition}, {seed})");
            let book = tied_book_on(day, edition, seed);
            let result = both.agreed(&name, &book, &mut met);
            assert!(paper::clear(&book, result.len()) == Ok(result), "{name}: not as the listing");
        }
    }
    println!("edition {edition}: {met:?}");
    assert!(met.heavily > met.books / 2, "{met:?}");
    assert!(met.by_tie.into_iter().all(|by_tie| by_tie > met.books / 10), "{met:?}");
    assert!(met.rivalled.into_iter().all(|rivalled| rivalled > met.books / 50), "{met:?}");
}

#[test]
fn tied_books_of_edition_1_clear_as_the_listing() {
    compare_with_listing(1);
}

#[test]
fn tied_books_of_edition_2_clear_as_the_listing() {
    compare_with_listing(2);
}

#[test]
fn tied_books_of_edition_3_clear_as_the_listing() {
    compare_with_listing(3);
}

#[test]
fn tied_books_of_edition_4_clear_as_the_listing() {
    compare_with_listing(4);
}

/// Large books of every family, with as many blocks as it is quick with.
#[test]
fn large_books_clear_the_same_without_fuel() {
    let (mut both, mut met) = (Both::new(), Counts::default());
    for family in FAMILIES {
        for seed in 1..=count("BOOKS", 8) {
            let name = format!("{}, seed {seed}", family.name);
            both.agreed(&name, &(family.book)(seed, family.quick_blocks), &mut met);
        }
    }
    println!("{met:?}");
    assert!((30..met.books - 30).contains(&met.heavily), "{met:?}");
    assert!(met.rivalled[0] > 5, "{met:?}");
}

/// The bench books, which are settled by known sets.
#[test]
fn the_bench_books_are_settled_as_expected() {
    let folder = Path::new(env!("CARGO_MANIFEST_DIR")).join("bench-books");
    let text = std::fs::read_to_string(folder.join("expected.txt")).expect("what is expected");
    let (mut both, mut met) = (Both::new(), Counts::default());
    for expected in Expected::lines(&text).expect("lines of books") {
        let Ok(book) = std::fs::read(folder.join(&expected.file)) else { continue };
        let accepted = paper::read(&book).expect("accepted");
        let result = both.agreed(&expected.file, &book, &mut met);
        let published = Published::from_bytes(&result);
        assert_eq!(published.set(&accepted), expected.set, "{}", expected.file);
        assert_eq!(published.welfare, expected.welfare, "{}", expected.file);
        assert_eq!(published.prices[..], expected.prices, "{}", expected.file);
    }
    println!("{met:?}");
    assert!((5..met.books - 5).contains(&met.heavily) && met.rivalled[0] > 2, "{met:?}");
}
