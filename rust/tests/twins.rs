//! The two twins of the proved clearing against the listing of all sets, and
//! against each other: the same bytes, and the same nodes.

mod large_stack;

use auction_listing::books::{
    count, day_edges, edge_books, edition_edges, link_edges, linked_day, linked_days,
    reader_book_of, reader_book_on, shared_book_on, shift_edges, shifted_book_on, shifted_days,
    small_book_of, small_book_on, step_limit_edges, tied_book_on, worked_days, Dice, Shape, DAYS,
    DAYS_AND_EDITIONS, FAMILIES,
};
use auction_listing::paper::{self, result_length_for, Published};
use auction_listing::twin::by_value::clearing;
use auction_listing::twin::count::{taken, Nodes};
use auction_listing::twin::in_place::{self, Workspace};
use auction_listing::twin::source::differences;
use std::path::Path;
use std::sync::Mutex;

/// The counters are shared by all threads.
static COUNTED: Mutex<()> = Mutex::new(());

fn with_stack(compare: fn()) {
    let alone = COUNTED.lock().unwrap_or_else(|broken| broken.into_inner());
    large_stack::with_stack(compare);
    drop(alone);
}

/// The answer, the result's bytes and the nodes.
type Run = (u32, Vec<u8>, Nodes);

fn untouched(size: usize) -> Vec<u8> {
    (0..size).map(|i| (i * 7 + 3) as u8).collect()
}

fn by_value(book: &[u8], size: usize) -> Run {
    let mut result = untouched(size);
    taken();
    let answer = match clearing::clear(book, &mut result) {
        Ok(()) => 0,
        Err(refusal) => u32::from(u8::from(refusal)),
    };
    (answer, result, taken())
}

fn in_place(book: &[u8], size: usize, space: &mut Workspace) -> Run {
    let mut result = untouched(size);
    taken();
    let answer = in_place::clear(book, &mut result, space);
    (answer, result, taken())
}

/// Both twins against each other; the answer and the result.
fn agreed(name: &str, book: &[u8], size: usize, space: &mut Workspace) -> (u32, Vec<u8>) {
    let one = in_place(book, size, space);
    let other = by_value(book, size);
    assert_eq!(one.2, other.2, "{name}: nodes in place and by value");
    assert!(one == other, "{name}: other results in place and by value");
    (one.0, one.1)
}

/// Both twins against the listing.
fn compare(name: &str, book: &[u8], size: usize, space: &mut Workspace) {
    let expected = match paper::clear(book, size) {
        Ok(result) => (0, result),
        Err(refusal) => (u32::from(refusal), untouched(size)),
    };
    assert!(
        agreed(name, book, size, space) == expected,
        "{name}: the listing gives another result"
    );
}

#[test]
fn the_twins_clear_small_books_as_the_listing() {
    with_stack(|| {
        let mut space = Workspace::default();
        let linked = linked_days().into_iter().filter(|(name, _)| *name != "linked-chain");
        for (name, orders) in worked_days().into_iter().chain(linked).chain(shifted_days()) {
            let book = orders.book();
            compare(name, &book, result_length_for(&book), &mut space);
        }
        let editions = [1, 2, 3, 4];
        for (edition, seed) in (0..1000).flat_map(|seed| editions.map(|edition| (edition, seed))) {
            let book = small_book_of(edition, seed);
            let name = format!("small_book_of({edition}, {seed})");
            compare(&name, &book, result_length_for(&book), &mut space);
        }
    });
}

#[test]
fn the_twins_refuse_as_the_listing() {
    with_stack(|| {
        let mut space = Workspace::default();
        let damaged =
            (0..400).flat_map(|seed| [1, 2, 3, 4].map(|edition| reader_book_of(edition, seed)));
        let limits = edition_edges().into_iter().chain(link_edges()).chain(step_limit_edges());
        for (i, book) in edge_books().into_iter().chain(limits).chain(damaged).enumerate() {
            compare_sizes(&format!("damaged book {i}"), &book, &mut space);
        }
    });
}

/// Into a result of the right size and of others.
fn compare_sizes(name: &str, book: &[u8], space: &mut Workspace) {
    if paper::read(book).is_ok_and(|accepted| accepted.blocks.len() > 10) {
        return; // the listing of all sets takes too long
    }
    let right = result_length_for(book);
    for size in [right, right + 1, 0] {
        compare(name, book, size, space);
    }
}

/// Books of days of 23, 24 and 25 hours, cleared and refused.
#[test]
fn the_twins_count_the_hours_as_the_listing() {
    with_stack(|| {
        let mut space = Workspace::default();
        for (i, book) in day_edges().iter().enumerate() {
            compare_sizes(&format!("edge {i} of the days"), book, &mut space);
        }
        for (day, edition) in DAYS_AND_EDITIONS {
            for seed in 0..300 {
                let of_seed = format!("on({day}, {edition}, {seed})");
                let book = small_book_on(day, edition, seed);
                compare_sizes(&format!("small_book_{of_seed}"), &book, &mut space);
                let book = reader_book_on(day, edition, seed);
                compare_sizes(&format!("reader_book_{of_seed}"), &book, &mut space);
            }
        }
    });
}

/// Prices that give way: blocks that trade with each other, and limits at the edges.
#[test]
fn the_twins_shift_as_the_listing() {
    with_stack(|| {
        let mut space = Workspace::default();
        for (i, book) in shift_edges().iter().enumerate() {
            let name = format!("edge {i} of the shift");
            compare(&name, book, result_length_for(book), &mut space);
        }
        for seed in 0..count("BOOKS", 3_000) {
            let day = DAYS[seed as usize % DAYS.len()];
            let book = shifted_book_on(day, 4, seed);
            let name = format!("shifted_book_on({day}, 4, {seed})");
            compare(&name, &book, result_length_for(&book), &mut space);
        }
    });
}

/// Large groups of steps at one price, on both sides at once.
#[test]
fn the_twins_share_as_the_listing() {
    with_stack(|| {
        let mut space = Workspace::default();
        for seed in 0..count("BOOKS", 3_000) {
            let (day, edition) = DAYS_AND_EDITIONS[seed as usize % DAYS_AND_EDITIONS.len()];
            let book = shared_book_on(day, edition, seed);
            let name = format!("shared_book_on({day}, {edition}, {seed})");
            compare(&name, &book, result_length_for(&book), &mut space);
        }
    });
}

/// Books in which many sets are as good as each other.
#[test]
fn the_twins_settle_ties_as_the_listing() {
    with_stack(|| {
        let mut space = Workspace::default();
        for seed in 0..count("BOOKS", 3_000) {
            let (day, edition) = DAYS_AND_EDITIONS[seed as usize % DAYS_AND_EDITIONS.len()];
            let book = tied_book_on(day, edition, seed);
            let name = format!("tied_book_on({day}, {edition}, {seed})");
            compare(&name, &book, result_length_for(&book), &mut space);
        }
    });
}

#[test]
fn the_twins_agree_on_large_books() {
    with_stack(|| {
        let mut space = Workspace::default();
        for family in FAMILIES {
            let (name, book) = (family.name, (family.book)(1, family.usual_blocks));
            agree_on_large(name, &book, &mut space);
        }
    });
}

/// Both twins against each other, and against what the paper makes of their set.
fn agree_on_large(name: &str, book: &[u8], space: &mut Workspace) {
    let (answer, result) = agreed(name, book, result_length_for(book), space);
    assert_eq!(answer, 0, "{name}: refused");
    let published = Published::from_bytes(&result);
    let accepted = paper::read(book).expect("accepted");
    let outcome = paper::outcome(&accepted, published.set(&accepted)).expect("lawful");
    assert!(paper::result_bytes(&accepted, &outcome) == result, "{name}: not its set's result");
}

/// Blocks linked in every shape, on days of every length, and many of them alike.
#[test]
fn the_twins_agree_on_large_linked_books() {
    with_stack(|| {
        let mut space = Workspace::default();
        let families = [2, 4, 8, 32].map(Shape::Families);
        let shapes = [Shape::Chain, Shape::Star, Shape::Tree, Shape::Any];
        // Two books of each seed and shape.
        let seeds = count("BOOKS", 192).div_ceil(16);
        for shape in shapes.into_iter().chain(families) {
            for seed in 0..seeds {
                let day = DAYS[seed as usize % 3];
                let name = format!("{shape:?}, seed {seed}, day of {day} hours");
                let mut book = on_day_of(day, linked_day(seed, 32, Some(shape)));
                agree_on_large(&name, &book, &mut space);
                make_blocks_alike(&mut book, &mut Dice::new(seed));
                agree_on_large(&format!("{name}, alike"), &book, &mut space);
            }
        }
    });
}

/// The book on a day of another length; the steps of hour 3 go to hour 4.
fn on_day_of(day: u32, mut book: Vec<u8>) -> Vec<u8> {
    for step in paper::read(&book).expect("accepted").steps_of(3) {
        book[16 * step.record + 6] = 4;
    }
    book[6] = day as u8;
    book
}

/// Gives half of the blocks the side, the hours and the quantity of one before them, and
/// some of these its price.
fn make_blocks_alike(book: &mut [u8], dice: &mut Dice) {
    let records: Vec<usize> =
        paper::read(book).expect("accepted").blocks.iter().map(|it| 16 * it.record).collect();
    for (position, &block) in records.iter().enumerate().skip(1) {
        let model = records[dice.below(position)];
        let fields: &[(usize, usize)] = match dice.below(4) {
            0 => &[(1, 2), (8, 16)],
            1 => &[(1, 2), (8, 11), (14, 16)],
            _ => &[],
        };
        for &(from, to) in fields {
            book.copy_within(model + from..model + to, block + from);
        }
    }
}

#[test]
fn the_by_value_twin_is_the_proved_source() {
    let package = Path::new(env!("CARGO_MANIFEST_DIR"));
    let crates = package.join("../crates");
    let found = differences(&crates, &package.join("src/twin/by_value")).expect("both are there");
    assert!(found.is_empty(), "run `cargo run --bin twin_source -- write`: {found:?}");
}
