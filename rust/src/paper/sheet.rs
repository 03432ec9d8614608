//! What the program auction-print writes.

use super::day::{clear, result_length, Published};
use super::read::{read, Book};

/// The sheet of a book's published outcome, or `refused;` and the number.
pub fn sheet(book: &[u8]) -> Vec<u8> {
    published(book).map_or_else(refusal_line, |(book, result)| sheet_of(&book, &result))
}

/// An accepted book and the bytes of its result, or the refusal.
pub(super) fn published(book: &[u8]) -> Result<(Book, Vec<u8>), u8> {
    let accepted = read(book)?;
    let result = clear(book, result_length(accepted.record_count))?;
    Ok((accepted, result))
}

/// What is written of a refused book.
pub(super) fn refusal_line(refusal: u8) -> Vec<u8> {
    format!("refused;{refusal}\n").into_bytes()
}

/// The sheet of a book and the bytes of its result.
pub fn sheet_of(book: &Book, result: &[u8]) -> Vec<u8> {
    let published = Published::from_bytes(result);
    let mut lines = String::from("hour;cents;tenths\n");
    let hours = published.prices.iter().zip(&published.traded);
    for (index, (price, traded)) in hours.enumerate() {
        lines += &format!("{};{price};{traded}\n", index + 1);
    }
    lines += "block;taken\n";
    for block in &book.blocks {
        let taken = u32::from(published.row(block.record) == block.quantity);
        lines += &format!("{};{taken}\n", block.number);
    }
    lines += &format!("welfare;{}\n", published.welfare);
    lines.into_bytes()
}
