//! Times of the proved clearing beside its two twins in plain Rust, from a book's
//! bytes to its result, with the nodes of the search. `rust/bench` builds and runs it.
//!
//! - `clearers`: the three programs;
//! - `clock`: processor time;
//! - `subject`: a book, with what is expected of it where that is known;
//! - `measure`: times and nodes on one book;
//! - `report`: the tables;
//! - `growth`: generated books: families, and by number of blocks and steps;
//! - `worst`: the worst families that are known;
//! - `texts`: the calls that write a text, beside the clearing;
//! - `ranges`: price ranges of full lists, beside prices.

mod clearers;
mod clock;
mod growth;
mod measure;
mod ranges;
mod report;
mod subject;
mod texts;
mod worst;

use auction_listing::twin::source;
use clearers::{Clearer, Kind};
use std::io::Read;
use std::path::Path;
use std::process::ExitCode;

/// The proved library and the by-value twin keep their tables on the stack.
const STACK: usize = 64 << 20;

/// Seconds after which a clearing is given up, where nothing else is said.
const LIMIT: f64 = 5.0;

/// What the command line asks for.
struct Options {
    /// Seconds after which a clearing is given up.
    limit: f64,
    generated: bool,
    /// Whether the by-value twin is that of the proved source.
    same_source: bool,
    files: Vec<String>,
}

fn main() -> ExitCode {
    let run = std::thread::Builder::new().stack_size(STACK).spawn(work);
    run.expect("a thread").join().unwrap_or(ExitCode::from(2))
}

fn work() -> ExitCode {
    let words: Vec<String> = std::env::args().skip(1).collect();
    match words.first().map(String::as_str) {
        Some("--once") => once(&words[1]),
        Some("--trial") => worst::trial(&words[1], &book_given()),
        Some("--time") => words[1..].iter().for_each(|file| time(file)),
        Some("--texts") => texts::texts(),
        Some("--nodes") => words[2..].iter().for_each(|file| nodes(&words[1], file)),
        Some("--ranges") => return verdict(ranges::table()),
        Some("--worst") => return verdict(worst::table(&options(&words[1..], worst::LIMIT))),
        _ => return tables(&options(&words, LIMIT)),
    }
    ExitCode::SUCCESS
}

fn options(words: &[String], limit: f64) -> Options {
    let package = Path::new(env!("CARGO_MANIFEST_DIR"));
    let mut crates = package.join("../crates");
    let mut options = Options { limit, generated: true, same_source: false, files: Vec::new() };
    let mut words = words.iter().cloned();
    while let Some(word) = words.next() {
        match word.as_str() {
            "--limit" => {
                options.limit = words.next().map_or(limit, |s| s.parse().expect("seconds"));
            }
            "--crates" => crates = words.next().expect("a folder of crates").into(),
            "--no-generated" => options.generated = false,
            _ => options.files.push(word),
        }
    }
    let differences = source::differences(&crates, &package.join("src/twin/by_value"));
    options.same_source = differences.is_ok_and(|files| files.is_empty());
    options
}

/// The book on standard input.
fn book_given() -> Vec<u8> {
    let mut book = Vec::new();
    std::io::stdin().read_to_end(&mut book).expect("a book on standard input");
    book
}

/// Clears the book on standard input once, for a run that is watched from outside.
fn once(kind: &str) {
    let book = book_given();
    let mut result = vec![0; subject::result_length(&book)];
    Clearer::new(Kind::named(kind)).clear(&book, &mut result);
}

/// The microseconds of the proved clearing of a book, and its welfare.
fn time(file: &str) {
    let subject = subject::Subject::from_file(file);
    let (seconds, welfare) = measure::proved_alone(&subject);
    println!("{:.1} {welfare}", seconds * 1e6);
}

/// The nodes that a twin counts.
fn nodes(kind: &str, file: &str) {
    let subject = subject::Subject::from_file(file);
    println!("{}", measure::nodes_of(Kind::named(kind), &subject.book).all);
}

fn tables(options: &Options) -> ExitCode {
    report::print_head(options);
    let mut right = true;
    if !options.files.is_empty() {
        let subjects = subject::from_paths(&options.files);
        right &= report::books(&subjects, options);
    }
    if options.generated {
        right &= growth::families(options);
        right &= growth::by_blocks(options);
        right &= growth::by_steps(options);
        texts::texts();
        right &= ranges::table();
    }
    verdict(right)
}

fn verdict(right: bool) -> ExitCode {
    if !right {
        println!("\nWRONG: see the last column of the tables.");
    }
    ExitCode::from(u8::from(!right))
}
