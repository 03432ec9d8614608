//! Times of the proved calls on books given as files, beside plain Rust; without files, of pricing one hour of 2,047 steps.
//! `cargo run --release --features proved --bin timing -- FILE..`

use auction_listing::books::{Dice, Orders, StepOrder};
use auction_listing::paper;
use auction_listing::paper::Side;
use std::time::Instant;

fn main() {
    time_full_hour();
    std::env::args().skip(1).for_each(|name| time(&name));
}

/// The shortest of some runs, in microseconds.
fn shortest(runs: u32, mut call: impl FnMut()) -> u128 {
    let one = |call: &mut dyn FnMut()| {
        let start = Instant::now();
        call();
        start.elapsed().as_micros()
    };
    (0..runs).map(|_| one(&mut call)).min().unwrap_or(0)
}

fn time(name: &str) {
    let book = std::fs::read(name).expect(name);
    let records = book.len() / 16;
    let mut result = vec![0; paper::result_length(records)];
    let reading = shortest(20, || assert!(auction::read(&book).is_ok()));
    let paper_reading = shortest(20, || assert!(paper::read(&book).is_ok()));
    let pricing = shortest(5, || assert!(auction::price(&book, 0, 1).is_ok()));
    let clearing = shortest(1, || assert!(auction::clear_into(&book, &mut result).is_ok()));
    let welfare = u64::from_be_bytes(result[..8].try_into().expect("8 bytes"));
    println!("{name}: {records} records, reading {reading} µs (plain Rust {paper_reading}), four pricing calls {pricing} µs, clearing {clearing} µs: welfare {welfare}");
}

/// Pricing hour 1 of a book with 2,047 steps in it, against the same bisection in plain Rust on decoded columns. A call also reads and
/// decodes the book: that is what a call for hour 2, which has no steps, takes.
fn time_full_hour() {
    let mut dice = Dice::new(7);
    let mut orders = Orders::default();
    for number in 1..=2047 {
        let side = dice.pick(&[Side::Buy, Side::Sell]);
        let (price, quantity) = (dice.between(1, 300_000), dice.between(1, 999));
        orders.steps.push(StepOrder { number, hour: 1, side, portfolio: 1, price, quantity });
    }
    let book = orders.book();
    let accepted = paper::read(&book).expect("accepted");
    let steps: Vec<(bool, u32, u32)> =
        accepted.steps_of(1).iter().map(|s| (s.side == Side::Buy, s.price, s.quantity)).collect();
    let expected = plain_price(&steps);
    let full = shortest(500, || assert_eq!(price_only(&book, 1), expected));
    let empty = shortest(500, || assert_eq!(price_only(&book, 2), 150_000));
    let plain = shortest(500, || assert_eq!(plain_price(std::hint::black_box(&steps)), expected));
    let ratio = (full - empty) as f64 / plain as f64;
    println!("pricing an hour of 2,047 steps: {} µs after {empty} µs of reading and decoding; plain Rust {plain} µs, ratio {ratio:.2}", full - empty);
}

/// The price of an hour without blocks, by one call and not by four.
fn price_only(book: &[u8], hour: u32) -> u32 {
    let part = auction::header::PART_PRICE;
    // SAFETY: pointer and length are those of one live slice, which the call only reads.
    unsafe { auction::raw::auction_price(book.as_ptr(), book.len(), 0, hour, part) }
}

fn plain_price(steps: &[(bool, u32, u32)]) -> u32 {
    let end = |margin: u64| {
        let (mut low, mut high) = (1, 300_000);
        while low < high {
            let middle = (low + high) / 2;
            let (mut above, mut upto) = (0u64, 0u64);
            for &(buys, price, quantity) in steps {
                if buys {
                    if middle < price {
                        above += u64::from(quantity);
                    }
                } else if price <= middle {
                    upto += u64::from(quantity);
                }
            }
            if above + margin <= upto {
                high = middle;
            } else {
                low = middle + 1;
            }
        }
        low
    };
    (end(0) + end(1)) / 2
}
