//! Price ranges of full lists (document 02, P14), beside pricing an hour of as many steps
//! twice: once with the quantities of each end.

use crate::clock::keep;
use crate::growth::{median, SEEDS};
use crate::report::{ratio, row};
use auction::{header, raw};
use auction_listing::books::{list_of, ListFamily, ListStep, Orders, BUY, LIST_FAMILIES, SELL};
use auction_listing::paper::Side;

/// Rounds on a list.
const ROUNDS: u32 = 2_000;

const WIDTHS: [usize; 6] = [22, 6, 8, 11, 7, 6];

/// What was measured on a list: the shortest seconds of a range and of two prices, and whether
/// the prices are the ends of the range.
struct Measured {
    range: Option<f64>,
    prices: Option<f64>,
    right: bool,
}

/// The table of ranges, medians of 5; whether all is right.
pub fn table() -> bool {
    println!("\nOne call for an end of a price range, and two calls for prices, in µs:");
    let words = ["list of 5 (medians)", "steps", "range", "two prices", "ratio", "right"];
    row(&words.map(String::from), &WIDTHS);
    LIST_FAMILIES.iter().map(family).fold(true, |all, one| all && one)
}

fn family(family: &ListFamily) -> bool {
    let all: Vec<Measured> = SEEDS.map(|seed| measured(&family.steps(seed))).collect();
    let of = |value: fn(&Measured) -> Option<f64>| median(all.iter().map(value).collect());
    let (range, prices) = (of(|one| one.range), of(|one| one.prices));
    let micros = |seconds: Option<f64>| seconds.map_or("-".into(), |it| format!("{:.1}", it * 1e6));
    let right = all.iter().all(|one| one.right);
    let cells = [
        family.name.to_string(),
        header::MOST_ENTRIES.to_string(),
        micros(range),
        micros(prices),
        ratio(range, prices),
        if right { "yes" } else { "NO" }.into(),
    ];
    row(&cells, &WIDTHS);
    right
}

fn measured(steps: &[ListStep]) -> Measured {
    let list = list_of(steps);
    // Least where the sells are high, greatest where the buys are.
    let books = [SELL, BUY].map(|high| book_at(steps, high));
    let (mut least, mut ends) = (0, [0; 2]);
    let (mut range, mut prices) = (None, None);
    for _ in 0..ROUNDS {
        keep(&mut range, || least = range_part(&list, header::RANGE_LEAST));
        keep(&mut prices, || ends = [price(&books[0]), price(&books[1])]);
    }
    let right = ends == [least, range_part(&list, header::RANGE_GREATEST)];
    Measured { range, prices, right }
}

/// The book whose hour 1 has these steps, those of one side high and the others low.
fn book_at(steps: &[ListStep], high: u32) -> Vec<u8> {
    let mut orders = Orders::new();
    for step in steps {
        let side = if step.side == BUY { Side::Buy } else { Side::Sell };
        let quantity = if step.side == high { step.high } else { step.low };
        orders = orders.step(side, 1, step.price, quantity, 1);
    }
    orders.book()
}

fn range_part(list: &[u8], part: u32) -> u32 {
    // SAFETY: pointer and length are those of one live slice, which the call only reads.
    unsafe { raw::auction_range(list.as_ptr(), list.len(), part) }
}

/// The price of hour 1 without blocks, by one call.
fn price(book: &[u8]) -> u32 {
    // SAFETY: as above.
    unsafe { raw::auction_price(book.as_ptr(), book.len(), 0, 1, header::PART_PRICE) }
}
