//! The samples: each text gives its book, each book its sheet, its family report and its cash
//! sheet, and the program `book_text` turns text and book into each other.

mod sample_files;

use auction_listing::books::{
    block_beside_the_day, cash_days, day_of_23_hours, day_of_25_hours, edition_2_day, fair_shares,
    head_alone, link_upwards, link_without_parent, linked_days, opposite_blocks, shifted_days,
    step_beside_the_day, steps_256, thirty_two_blocks, worked_days, Orders, CHAIN_OF_32_TAKEN,
    THIRTY_TWO_BLOCKS_TAKEN,
};
use auction_listing::paper::{clear, outcome, read, result_bytes, result_length, texts, Texts};
use auction_listing::text::{to_book, to_text};
use sample_files::{names, sample};
use std::io::Write;
use std::process::{Command, Output, Stdio};

fn accepted_samples() -> Vec<(&'static str, Orders)> {
    let mut samples = worked_days();
    samples.push(("head-alone", head_alone()));
    samples.push(("opposite-blocks", opposite_blocks()));
    samples.push(("thirty-two-blocks", thirty_two_blocks()));
    samples.push(("edition-2", edition_2_day()));
    samples.push(("day-25", day_of_25_hours()));
    samples.push(("day-23", day_of_23_hours()));
    samples.extend(linked_days());
    samples.extend(cash_days());
    samples.push(("fair-shares", fair_shares()));
    samples.extend(shifted_days());
    samples.push(("steps-256", steps_256()));
    samples
}

/// Each with its refusal.
const REFUSED_SAMPLES: [(&str, u8); 14] = [
    ("refused-1", 1),
    ("refused-2", 2),
    ("refused-3", 3),
    ("refused-4", 4),
    ("refused-5", 5),
    ("refused-6", 6),
    ("refused-4-edition-2", 4),
    ("refused-6-edition-2", 6),
    ("refused-9-step", 9),
    ("refused-9-block", 9),
    ("refused-2-edition-3", 2),
    ("refused-10", 10),
    ("refused-10-order", 10),
    ("refused-11", 11),
];

#[test]
fn texts_give_the_books() {
    for (name, orders) in accepted_samples() {
        let text = String::from_utf8(sample(name, "txt")).unwrap();
        let book = sample(name, "book");
        assert_eq!(to_book(&text).unwrap(), book, "{name}");
        assert_eq!(orders.book(), book, "{name}");
        assert_eq!(to_book(&to_text(&book).unwrap()).unwrap(), book, "{name}");
    }
}

/// The result of a sample. 2^32 sets are too many to list: those of 32 blocks are known by
/// reasons.
fn result_of(name: &str, book: &[u8]) -> Vec<u8> {
    let of_set = |set: u32| {
        let book = read(book).unwrap();
        result_bytes(&book, &outcome(&book, set).unwrap())
    };
    match name {
        "thirty-two-blocks" => {
            of_set(THIRTY_TWO_BLOCKS_TAKEN.iter().map(|number| 1 << (number - 1)).sum())
        }
        "linked-chain" => of_set((1 << CHAIN_OF_32_TAKEN) - 1),
        _ => clear(book, result_length(book.len() / 16)).unwrap(),
    }
}

/// What is stored of a sample.
fn stored(name: &str) -> Texts {
    let [sheet, families, cash] = ["sheet", "families", "cash"].map(|it| sample(name, it));
    Texts { sheet, families, cash }
}

#[test]
fn books_give_the_sheets_the_family_reports_and_the_cash_sheets() {
    for (name, _) in accepted_samples() {
        let book = sample(name, "book");
        let (accepted, result) = (read(&book).unwrap(), result_of(name, &book));
        assert_eq!(Texts::of_result(&accepted, &result), stored(name), "{name}");
    }
}

#[test]
fn refused_samples() {
    for (name, refusal) in REFUSED_SAMPLES {
        let book = sample(name, "book");
        assert_eq!(read(&book).err(), Some(refusal), "{name}");
        assert_eq!(texts(&book), stored(name), "{name}");
        assert_eq!(stored(name).cash, format!("refused;{refusal}\n").into_bytes(), "{name}");
        let told = book_text("to-text", &book);
        assert_eq!((told.status.code(), told.stdout.len()), (Some(1), 0));
        let message = String::from_utf8(told.stderr).unwrap();
        assert!(message.contains(&format!("refused with {refusal}: ")), "{message}");
    }
}

/// Those of edition 2 are one beyond its limits: a quantity, and a block of a portfolio.
#[test]
fn refused_samples_of_edition_2() {
    let cases = [("refused-4-edition-2", 5, 15, 251, 250), ("refused-6-edition-2", 11, 7, 3, 4)];
    for (name, record, at, beyond, within) in cases {
        let mut book = sample(name, "book");
        let byte = 16 * record + at;
        assert_eq!((book[7], book[byte]), (2, beyond), "{name}");
        book[byte] = within;
        assert!(read(&book).is_ok(), "{name}");
    }
}

/// Those of a day of 23 hours: right on a day of 24.
#[test]
fn refused_samples_of_a_day() {
    for (name, orders) in
        [("refused-9-step", step_beside_the_day()), ("refused-9-block", block_beside_the_day())]
    {
        let mut book = sample(name, "book");
        assert_eq!((orders.book(), book[6]), (book.clone(), 23), "{name}");
        book[6] = 24;
        assert!(read(&book).is_ok(), "{name}");
    }
}

/// Those of edition 3: a byte of the head behind the links, a parent that is not there, and
/// one that is not below its child. With these bytes right they are accepted.
#[test]
fn refused_samples_of_edition_3() {
    let books = [("refused-10", link_without_parent()), ("refused-10-order", link_upwards())];
    for (name, orders) in books {
        assert_eq!(orders.book(), sample(name, "book"), "{name}");
    }
    let (child, parent) = (16 * 7 + 5, 16 * 7 + 7);
    // (byte, its value, the right one)
    for (name, changes) in [
        ("refused-2-edition-3", &[(10, 1, 0)][..]),
        ("refused-10", &[(parent, 2, 1)]),
        ("refused-10-order", &[(child, 1, 2), (parent, 2, 1)]),
    ] {
        let mut book = sample(name, "book");
        for &(at, wrong, right) in changes {
            assert_eq!((book[7], book[at]), (3, wrong), "{name}");
            book[at] = right;
        }
        assert!(read(&book).is_ok(), "{name}");
    }
}

/// One step of portfolio 2 given to portfolio 1: in edition 4 that is its 257th in hour 1, and
/// in edition 3 it is accepted.
#[test]
fn refused_sample_of_edition_4() {
    let (mut book, portfolio) = (sample("refused-11", "book"), 16 * 257 + 7);
    assert_eq!((book[7], book[portfolio]), (4, 1));
    book[7] = 3;
    assert!(read(&book).is_ok());
    (book[7], book[portfolio]) = (4, 2);
    assert_eq!(book, sample("steps-256", "book"));
}

/// No sample without a test.
#[test]
fn all_samples_are_known() {
    let mut known: Vec<String> =
        accepted_samples().iter().map(|(name, _)| name.to_string()).collect();
    known.extend(REFUSED_SAMPLES.map(|(name, _)| name.to_string()));
    for name in names() {
        assert!(known.contains(&name), "{name} is in no test");
    }
}

#[test]
fn the_program() {
    let (text, book) = (sample("S5", "txt"), sample("S5", "book"));
    let made = book_text("to-book", &text);
    assert_eq!((made.status.code(), made.stdout), (Some(0), book.clone()));
    let told = book_text("to-text", &book);
    assert_eq!((told.status.code(), told.stdout), (Some(0), to_text(&book).unwrap().into_bytes()));
    let wrong = book_text("to-book", b"step buy hour 25 price 1 quantity 1 portfolio 1\n");
    assert_eq!((wrong.status.code(), wrong.stdout.len()), (Some(1), 0));
    assert!(String::from_utf8(wrong.stderr).unwrap().starts_with("book_text: line 1: `hour 25`"));
    assert_eq!(book_text("to-book", &[255]).status.code(), Some(1));
    assert_eq!(book_text("to-nothing", b"").status.code(), Some(2));
    let help = book_text("--help", b"");
    assert!(String::from_utf8(help.stdout).unwrap().contains("block buy hours 1-8,21-24"));
}

/// Runs the program with this on its standard input.
fn book_text(command: &str, input: &[u8]) -> Output {
    let mut child = Command::new(env!("CARGO_BIN_EXE_book_text"))
        .arg(command)
        .stdin(Stdio::piped())
        .stdout(Stdio::piped())
        .stderr(Stdio::piped())
        .spawn()
        .expect("the program starts");
    // A program that needs no input may be gone before it is written.
    let _ = child.stdin.take().expect("piped").write_all(input);
    child.wait_with_output().expect("the program ends")
}
