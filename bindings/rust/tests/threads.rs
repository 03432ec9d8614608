//! Many threads at once, and the stack that a call is said to need.

use auction::{header, Cash, Family, Outcome, Price, PriceRange, Refusal};
use std::path::Path;
use std::sync::Barrier;
use std::thread;

/// The first edition whose published prices may be others than the middle ones.
const FIRST_SHIFT_EDITION: u8 = 4;

/// The samples and the books of the benchmark, by name.
fn books() -> Vec<(String, Vec<u8>)> {
    let mut books = Vec::new();
    for folder in ["../../samples", "../../rust/bench-books"] {
        let folder = Path::new(env!("CARGO_MANIFEST_DIR")).join(folder);
        for entry in std::fs::read_dir(folder).expect("a folder of books") {
            let path = entry.expect("an entry").path();
            if path.extension().is_some_and(|ending| ending == "book") {
                let name = path.file_name().expect("a name").to_string_lossy().into_owned();
                books.push((name, std::fs::read(&path).expect("a book")));
            }
        }
    }
    books.sort();
    assert!(books.len() >= 24);
    books
}

/// A list of as many steps as there may be; a book's length says which.
fn full_list(book: &[u8]) -> Vec<u8> {
    let step = |at: u32| [at % 2, 1 + at * book.len() as u32 % 300_000, at, 99_999 - at];
    (0..header::MOST_ENTRIES).flat_map(step).flat_map(u32::to_be_bytes).collect()
}

/// What every call says of a book, and of a list that goes with it.
#[derive(Debug, PartialEq)]
struct Said {
    read: Result<(), Refusal>,
    clear: Result<Outcome, Refusal>,
    sheet: String,
    families: Result<Vec<Family>, Refusal>,
    cash: Result<Cash, Refusal>,
    prices: Vec<Result<Price, Refusal>>,
    range: Result<PriceRange, Refusal>,
}

fn said(book: &[u8]) -> Said {
    let clear = auction::clear(book);
    let set = clear.as_ref().map_or(0, Outcome::set);
    let prices = (0..=25).map(|hour| auction::price(book, set, hour)).collect();
    let (families, cash) = (auction::families(book), auction::cash(book));
    let range = auction::price_range(&full_list(book));
    assert!(range.is_ok(), "a right list");
    let sheet = auction::sheet(book);
    Said { read: auction::read(book), clear, sheet, families, cash, prices, range }
}

/// Each thread has a book of its own and begins together with the others.
#[test]
fn many_threads_get_what_one_gets() {
    let books = books();
    let alone: Vec<Said> = books.iter().map(|(_, book)| said(book)).collect();
    for round in 0..5 {
        let start = Barrier::new(24);
        thread::scope(|scope| {
            for index in 0..24 {
                let (books, alone, start) = (&books, &alone, &start);
                let at = (index + 7 * round) % books.len();
                scope.spawn(move || {
                    start.wait();
                    assert!(said(&books[at].1) == alone[at], "{}", books[at].0);
                });
            }
        });
    }
}

/// A thread with no more stack than the header says does not overflow it, in any call.
#[test]
fn the_stated_stack_is_enough() {
    let small = thread::Builder::new().stack_size(auction::STACK);
    let accepted =
        small.spawn(|| books().iter().filter(|(_, book)| said(book).read.is_ok()).count());
    assert!(accepted.expect("a thread").join().expect("no overflow") >= 24);
}

/// The decoded outcome and the sheet say the same.
#[test]
fn outcomes_are_those_of_the_sheets() {
    for (name, book) in books() {
        let Ok(outcome) = auction::clear(&book) else {
            assert!(auction::sheet(&book).starts_with("refused;"), "{name}");
            continue;
        };
        let mut lines = String::from("hour;cents;tenths\n");
        for hour in 1..=24 {
            lines += &format!("{hour};{};{}\n", outcome.price(hour), outcome.traded(hour));
            let (low, high, price) = match auction::price(&book, outcome.set(), hour as u32) {
                Ok(Price::Clears { low, high, price }) => (low, high, price),
                // The hour that a day of 23 hours does not have.
                Err(Refusal::Call) if (book[6], hour) == (23, 3) => (0, 0, 0),
                other => panic!("{name}, hour {hour}: {other:?}"),
            };
            assert!((low..=high).contains(&outcome.price(hour)), "{name}, hour {hour}");
            if book[7] < FIRST_SHIFT_EDITION {
                assert_eq!(price, outcome.price(hour), "{name}, hour {hour}");
            }
        }
        lines += "block;taken\n";
        let taken: Vec<u32> = outcome.taken().collect();
        let blocks = outcome.rows.iter().filter(|row| row.kind == auction::Kind::Block);
        let mut numbers: Vec<u32> = blocks.map(|row| row.number).collect();
        numbers.sort();
        for number in numbers {
            assert_eq!(outcome.block(number).expect("a block") > 0, taken.contains(&number));
            lines += &format!("{number};{}\n", u32::from(taken.contains(&number)));
        }
        lines += &format!("welfare;{}\n", outcome.welfare);
        assert_eq!(auction::sheet(&book), lines, "{name}");
    }
}
