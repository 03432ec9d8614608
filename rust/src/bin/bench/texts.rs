//! The calls that write a text of a book, beside its clearing, which is a part of each.

use crate::clearers::{Clearer, Kind};
use crate::clock::keep;
use crate::growth::{median, SEEDS};
use crate::measure::by_turns;
use crate::report::row;
use crate::subject::result_length;
use auction_listing::books::full_day;
use auction_listing::paper;

/// A call that puts a text where it has room.
type Put = fn(&[u8], &mut [u8]) -> usize;

const CALLS: [Put; 3] = [auction::sheet_into, auction::families_into, auction::cash_into];

/// What is timed: the clearing, and each of the calls.
const TIMED: [&str; 4] = ["clearing", "sheet", "families", "cash"];

const WIDTHS: [usize; 9] = [22, 10, 9, 8, 8, 8, 8, 8, 8];

/// The table of full days whose steps are of so many portfolios: medians of the times, and
/// of each text's time over the clearing's.
pub fn texts() {
    println!("\n{:>42} {:>33}", "µs", "over clearing");
    cells(
        ["full days", "portfolios"],
        TIMED.map(String::from),
        [1, 2, 3].map(|at| TIMED[at].into()),
    );
    for portfolios in [60, 255] {
        let book = |seed| with_portfolios(full_day(seed, 2015, 32), portfolios);
        let all: Vec<[f64; 4]> = SEEDS.map(|seed| times(&book(seed))).collect();
        let of = |value: &dyn Fn(&[f64; 4]) -> f64| {
            median(all.iter().map(|one| Some(value(one))).collect()).expect("some books")
        };
        let micros = [0, 1, 2, 3].map(|at| format!("{:.0}", of(&|one| one[at]) * 1e6));
        let ratios = [1, 2, 3].map(|at| format!("{:.2}", of(&|one| one[at] / one[0])));
        cells(["2015 steps, 32 blocks", &portfolios.to_string()], micros, ratios);
    }
}

fn cells(names: [&str; 2], micros: [String; 4], ratios: [String; 3]) {
    row(&[&names.map(String::from)[..], &micros, &ratios].concat(), &WIDTHS);
}

/// The book with its steps handed to so many portfolios in turn.
fn with_portfolios(mut book: Vec<u8>, portfolios: usize) -> Vec<u8> {
    let steps = paper::read(&book).expect("accepted").steps;
    for (place, step) in steps.iter().enumerate() {
        book[16 * step.record + 7] = (1 + place % portfolios) as u8;
    }
    book
}

/// Seconds of the clearing and of each text, by turns.
fn times(book: &[u8]) -> [f64; 4] {
    let mut clearer = Clearer::new(Kind::Proved);
    let mut result = vec![0; result_length(book)];
    let mut out = vec![0; auction::header::MOST_CASH as usize];
    let mut shortest = [None; 4];
    by_turns(|| {
        keep(&mut shortest[0], || clearer.clear(book, &mut result));
        for (at, call) in CALLS.iter().enumerate() {
            keep(&mut shortest[at + 1], || assert!(call(book, &mut out) > 0));
        }
    });
    shortest.map(|seconds| seconds.expect("at least one turn"))
}
