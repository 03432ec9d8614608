//! The proved calls against the listing, byte for byte, on books with their names.

use crate::proved_texts::proved_texts;
use auction_listing::books::Met;
use auction_listing::paper::{self, result_length_for};

/// A book and the name by which it is made again.
pub type Named = (String, Vec<u8>);

/// Clears and prints accepted books: sheet, family report and cash sheet.
pub fn compare_accepted(books: impl Iterator<Item = Named>) {
    for (name, book) in books {
        assert_eq!(clearing_agrees(&book, result_length_for(&book), &name), 0, "{name}");
        assert_eq!(proved_texts(&book), paper::texts(&book), "{name}");
    }
}

/// Clears and prints any bytes, into buffers of the right size and of others.
pub fn compare_any(books: impl Iterator<Item = Named>) -> Met {
    let mut met = Met::default();
    for (name, book) in books {
        if paper::read(&book).is_ok_and(|accepted| accepted.blocks.len() > 10) {
            continue; // the listing of all sets takes too long
        }
        let right = result_length_for(&book);
        for size in [right, right + 1, 0] {
            met.add(clearing_agrees(&book, size, &name));
        }
        assert_eq!(proved_texts(&book), paper::texts(&book), "{name}");
    }
    met
}

/// The proved clearing of a book into a buffer of a size, against the listing; the answer.
fn clearing_agrees(book: &[u8], size: usize, name: &str) -> u8 {
    let before: Vec<u8> = (0..size).map(|i| (i * 7 + 3) as u8).collect();
    let mut result = before.clone();
    let answer = auction::clear_into(book, &mut result).err().map_or(0, |it| it.number());
    match paper::clear(book, size) {
        Ok(expected) => {
            assert_eq!(answer, 0, "{name}: refused");
            assert!(result == expected, "{name}: another result");
            0
        }
        Err(refusal) => {
            assert_eq!(answer, u32::from(refusal), "{name}: another refusal");
            assert!(result == before, "{name}: the result was written to");
            refusal
        }
    }
}
