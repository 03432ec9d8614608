//! The program that climbs to a bad book, for a few tries: the nodes never fall, and the book
//! that it prints is accepted and needs as many.

use auction_listing::books::full_day_of;
use auction_listing::paper::{self, Block};
use auction_listing::text::to_book;
use auction_listing::twin::count::taken;
use auction_listing::twin::in_place::{clear, Workspace};
use std::process::{Command, Output};

const SEED: u64 = 3;

fn called(words: &str) -> Output {
    let mut climb = Command::new(env!("CARGO_BIN_EXE_climb"));
    climb.args(words.split_whitespace()).output().expect("the program runs")
}

/// What the program prints.
fn climbed(words: &str) -> String {
    let output = called(words);
    assert!(output.status.success(), "{words}: {output:?}");
    String::from_utf8(output.stdout).expect("text")
}

/// The nodes that the lines of a text tell, in their order.
fn told(text: &str) -> Vec<u64> {
    let nodes_in = |line: &str| -> Option<u64> {
        let (before, _) = line.strip_prefix('#')?.split_once(" nodes")?;
        before.split_whitespace().last()?.parse().ok()
    };
    text.lines().filter_map(nodes_in).collect()
}

/// The nodes that the twin needs for a book, which is accepted.
fn nodes_of(book: &[u8]) -> u64 {
    let mut result = vec![0; paper::result_length_for(book)];
    taken();
    assert_eq!(clear(book, &mut result, &mut Workspace::default()), 0);
    taken().all
}

fn blocks_of(book: &[u8]) -> Vec<Block> {
    paper::read(book).expect("accepted").blocks
}

/// The portfolios of the blocks that differ from those of the day before the climb.
fn changed_portfolios(edition: u32, book: &[u8]) -> Vec<u32> {
    let before = blocks_of(&full_day_of(edition, SEED, 32));
    let both = before.iter().zip(blocks_of(book));
    let mut changed: Vec<u32> =
        both.filter(|(one, other)| **one != *other).map(|(one, _)| one.portfolio).collect();
    changed.dedup();
    changed
}

#[test]
fn the_nodes_never_fall_and_the_book_has_them() {
    for edition in [1, 4] {
        for way in ["--member", "--all"] {
            let words = format!("{way} --tries 50 --seed {SEED} --edition {edition}");
            let text = climbed(&words);
            let nodes = told(&text);
            let (rises, [last, worst]) = nodes.split_at(nodes.len() - 2) else { panic!("{text}") };
            assert!(nodes.windows(2).all(|pair| pair[0] <= pair[1]), "{words}: {nodes:?}");
            assert!(!rises.is_empty() && last == worst, "{words}: {nodes:?}");
            let book = to_book(&text).unwrap_or_else(|error| panic!("{words}: {error}"));
            assert_eq!(nodes_of(&book), *worst, "{words}");
            let changed = changed_portfolios(edition, &book).len();
            assert!(if way == "--member" { changed == 1 } else { changed > 1 }, "{words}");
            assert_eq!(told(&climbed(&words)), nodes, "{words}: another climb of the same seed");
        }
    }
}

#[test]
fn a_climb_ends_at_its_cap() {
    let text = climbed("--all --tries 5000 --cap 100");
    assert!(text.contains(" tries: more than 100 nodes"), "{}", &text[..200]);
    assert!(to_book(&text).is_ok());
}

#[test]
fn wrong_commands_are_refused() {
    for words in ["", "--seconds 1", "--all --tries", "--all --tries one", "--all --from nowhere"] {
        let output = called(words);
        assert_eq!(output.status.code(), Some(2), "{words}");
        assert!(output.stdout.is_empty() && output.stderr.starts_with(b"climb: "), "{words}");
    }
}
