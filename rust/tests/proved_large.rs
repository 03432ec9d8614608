//! The proved library on large books: the bench books with what is expected of
//! them, and generated books of 10 to 32 blocks of every family. The clearing is
//! held to the by-value twin, byte for byte, and the calls are held to each other.
//! Compiled with the feature `proved` only.
//!
//! The environment variable BOOKS raises the count of generated books (at least
//! 1012, and those of [`CHOSEN`]).

mod answers;
mod large_stack;
mod proved_texts;

use answers::hour_answer;
use auction_listing::books::{count, Expected, Family, FAMILIES};
use auction_listing::paper::{self, Book, HourAnswer, Published, Texts};
use auction_listing::twin::by_value::clearing;
use large_stack::with_stack;
use proved_texts::proved_texts;
use std::fs;
use std::ops::RangeInclusive;
use std::path::{Path, PathBuf};

/// Generated books have at least so many blocks, and at most those that their
/// family is quick with.
const LEAST_BLOCKS: usize = 10;
/// Books of a family, where the count is not raised: two for each number of blocks.
const BOOKS_OF_A_FAMILY: u64 = 46;

/// Books with more blocks than their family is quick with whose seeds are chosen so
/// that they clear in less than a second: family, blocks, seeds.
const CHOSEN: [(&str, RangeInclusive<usize>, RangeInclusive<u64>); 2] =
    [("ties", 25..=32, 3..=9), ("cliffs", 23..=32, 42..=42)];

fn bench_books() -> PathBuf {
    Path::new(env!("CARGO_MANIFEST_DIR")).join("bench-books")
}

fn untouched(book: &[u8], filler: u8) -> Vec<u8> {
    vec![filler; paper::result_length(book.len() / 16)]
}

/// The result of the proved clearing, which is that of the twin.
fn cleared(name: &str, book: &[u8]) -> Vec<u8> {
    // Two fillers, so that a byte that is not written shows.
    let (mut result, mut twin) = (untouched(book, 0x55), untouched(book, 0xaa));
    assert_eq!(auction::clear_into(book, &mut result), Ok(()), "{name}");
    let published = clearing::clear(book, &mut twin).is_ok();
    assert!(published, "{name}: the twin refuses");
    assert!(result == twin, "{name}: the twin has another result");
    result
}

/// What the binding decodes is what the bytes say.
fn decoded(name: &str, book: &[u8], published: &Published, set: u32) {
    let outcome = auction::clear(book).expect("accepted");
    assert_eq!((outcome.welfare, outcome.set()), (published.welfare, set), "{name}");
    assert_eq!(outcome.prices[..], published.prices, "{name}");
    assert_eq!(outcome.traded[..], published.traded, "{name}");
    let executed: Vec<u32> = outcome.rows.iter().map(|row| row.executed).collect();
    assert_eq!(executed, published.rows, "{name}");
}

/// All calls on a book, held to each other; what is published, and its set.
fn agreed(name: &str, book: &[u8]) -> (Book, Published, u32) {
    assert_eq!(auction::read(book), Ok(()), "{name}");
    let result = cleared(name, book);
    let accepted = paper::read(book).expect("accepted");
    let published = Published::from_bytes(&result);
    let set = published.set(&accepted);
    decoded(name, book, &published, set);
    // What the paper makes of this set.
    let outcome = paper::outcome(&accepted, set).expect("a lawful set");
    assert!(paper::result_bytes(&accepted, &outcome) == result, "{name}: not its set's result");
    assert_eq!(proved_texts(book), Texts::of_result(&accepted, &result), "{name}");
    for hour in 1..=24 {
        let answer = hour_answer(auction::price(book, set, hour));
        if !accepted.hours.contains(&hour) {
            assert_eq!(answer, HourAnswer::Refused(8), "{name}, hour {hour}");
            continue;
        }
        let HourAnswer::Cleared { low, high, price } = answer else {
            panic!("{name}, hour {hour}: {answer:?}");
        };
        assert_eq!(price, (low + high) / 2, "{name}, hour {hour}");
        // Up to edition 3 the middle price is published, from then on that at the set's shift.
        let at_shift = paper::shifted(low, high, outcome.shift);
        assert_eq!(at_shift, published.prices[hour as usize - 1], "{name}, hour {hour}");
        assert!(accepted.edition > 3 || price == at_shift, "{name}, hour {hour}");
        assert_eq!(answer, paper::price_hour(book, set, hour), "{name}, hour {hour}");
    }
    (accepted, published, set)
}

/// Every book has a line in `expected.txt`, and every line its book.
#[test]
fn the_bench_books_are_as_expected() {
    with_stack(|| {
        let text = fs::read_to_string(bench_books().join("expected.txt")).expect("expected.txt");
        let expected = Expected::lines(&text).expect("lines of words and values");
        assert_eq!(expected.len(), 20);
        let entries = fs::read_dir(bench_books()).expect("the bench books");
        assert_eq!(entries.count(), expected.len() + 1, "books and expected.txt");
        for line in expected {
            let book = fs::read(bench_books().join(&line.file)).expect(&line.file);
            let (accepted, published, set) = agreed(&line.file, &book);
            assert_eq!(accepted.blocks.len(), line.blocks, "{}", line.file);
            assert_eq!((set, set.count_ones()), (line.set, line.taken), "{}", line.file);
            assert_eq!(published.welfare, line.welfare, "{}", line.file);
            assert_eq!(published.prices, line.prices, "{}", line.file);
            assert_eq!(published.welfare + line.loss, line.bound, "{}", line.file);
        }
    });
}

/// What the books of a test have in common, so that a family of plain books shows.
#[derive(Default)]
struct Met {
    books: u64,
    taken: u32,
    left_out: u32,
    traded: bool,
}

impl Met {
    fn look_at(&mut self, family: &Family, seed: u64, blocks: usize) {
        let name = format!("{}, seed {seed}, {blocks} blocks", family.name);
        let (accepted, published, set) = agreed(&name, &(family.book)(seed, blocks));
        assert_eq!(accepted.blocks.len(), blocks, "{name}");
        self.books += 1;
        self.taken += set.count_ones();
        self.left_out += blocks as u32 - set.count_ones();
        self.traded |= published.traded.iter().any(|&traded| traded > 0);
    }
}

#[test]
fn generated_books_of_every_family_agree() {
    with_stack(|| {
        let all = FAMILIES.len() as u64;
        let wanted = count("BOOKS", all * BOOKS_OF_A_FAMILY).div_ceil(all);
        for family in FAMILIES {
            let mut met = Met::default();
            let sizes = (family.quick_blocks + 1 - LEAST_BLOCKS) as u64;
            for seed in 0..wanted {
                met.look_at(&family, seed, LEAST_BLOCKS + (seed % sizes) as usize);
            }
            println!(
                "{}: {} books, {} blocks taken, {} left out",
                family.name, met.books, met.taken, met.left_out
            );
            assert!(met.books >= BOOKS_OF_A_FAMILY);
            assert!(met.taken > 0 && met.left_out > 0 && met.traded, "{}", family.name);
        }
    });
}

#[test]
fn chosen_books_of_slow_families_agree() {
    with_stack(|| {
        for (name, sizes, seeds) in CHOSEN {
            let family = FAMILIES.iter().find(|family| family.name == name).expect(name);
            let mut met = Met::default();
            for blocks in sizes {
                seeds.clone().for_each(|seed| met.look_at(family, seed, blocks));
            }
            assert!(met.books > 0 && met.taken > 0 && met.traded, "{name}");
        }
    });
}
