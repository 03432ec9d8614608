//! Turns a plain-text list of orders into a book, and a book into text. The form
//! is documented in `auction_listing::text` and by `book_text --help`.

use auction_listing::text::{refusal_meaning, to_book, to_text};
use std::io::{self, Read, Write};
use std::process::ExitCode;

const HELP: &str = "\
book_text: the plain-text form of an order book

  book_text to-book < orders.txt > day.book    text to book bytes
  book_text to-text < day.book > orders.txt    book bytes to text
  book_text --help                             this page

The text has one order a line. `#` begins a comment; empty lines are skipped. A
line `edition 2`, `edition 3` or `edition 4` in front of all orders makes a book of
that edition; without it the book is of edition 1. A line `day 23` or `day 25` in
front of them makes the book of a day of so many hours; without it the day has 24.

  step buy hour 1 price 5000 quantity 100 portfolio 1
  step sell hour 1 price 3000 quantity 100 portfolio 2 number 7
  block sell hours 1,2 price 2900 quantity 50 portfolio 3
  block buy hours 1-8,21-24 price 4100 quantity 10 portfolio 3

A line of an order begins with `step` or `block` and `buy` or `sell`; the fields
follow, each a word and its value, in any order:

  hour       of a step, 1 to 24; on a day of 23 hours not 3
  hours      of a block, at least two, as a list of hours and ranges, no spaces;
             on a day of 23 hours two besides hour 3
  price      whole cents per MWh, 1 to 300000
  quantity   whole tenths of a MW, 1 to 99999 for a step; for a block 1 to 50 in
             edition 1, 1 to 250 in the later ones
  portfolio  1 to 255
  number     1 to 65535; may be left out: one more than the order of its kind on
             the line before it, and 1 for the first. Steps and blocks are
             numbered separately, and each number stands once among them.

From edition 3 on a line

  link child 4 parent 2

says that block 4 may be taken only with block 2. The parent's number is below
the child's, and a block is a child once at most.

The first order or link becomes record 1, the second record 2, and so on; the
chains follow the numbers. A book has at most 2047 orders and links, of them at
most 32 blocks; of one portfolio at most 5 blocks in edition 1, at most 10 in the
later ones, and in edition 4 at most 256 steps in one hour.

Exit codes: 0 done; 1 the input is wrong (the reason is on standard error and
nothing is on standard output); 2 a wrong command.
";

fn main() -> ExitCode {
    let arguments: Vec<String> = std::env::args().skip(1).collect();
    let words: Vec<&str> = arguments.iter().map(String::as_str).collect();
    let done = match words[..] {
        ["to-book"] => input().and_then(|text| book_from(&text)),
        ["to-text"] => input().and_then(|book| text_from(&book)),
        ["--help" | "-h" | "help"] => Ok(HELP.as_bytes().to_vec()),
        _ => {
            eprintln!("book_text: expected `to-book`, `to-text` or `--help`");
            return ExitCode::from(2);
        }
    };
    match done.and_then(|bytes| output(&bytes)) {
        Ok(()) => ExitCode::SUCCESS,
        Err(message) => {
            eprintln!("book_text: {message}");
            ExitCode::from(1)
        }
    }
}

fn input() -> Result<Vec<u8>, String> {
    let mut bytes = Vec::new();
    let read = io::stdin().read_to_end(&mut bytes);
    read.map_err(|error| format!("cannot read standard input: {error}"))?;
    Ok(bytes)
}

fn output(bytes: &[u8]) -> Result<(), String> {
    let mut out = io::stdout();
    let written = out.write_all(bytes).and_then(|()| out.flush());
    written.map_err(|error| format!("cannot write standard output: {error}"))
}

fn book_from(text: &[u8]) -> Result<Vec<u8>, String> {
    let text = std::str::from_utf8(text).map_err(|_| {
        "the input is not text (not UTF-8); expected one order a line, see --help".to_string()
    })?;
    to_book(text).map_err(|error| error.to_string())
}

fn text_from(book: &[u8]) -> Result<Vec<u8>, String> {
    let refused =
        |refusal| format!("the book is refused with {refusal}: {}", refusal_meaning(refusal));
    to_text(book).map(String::into_bytes).map_err(refused)
}
