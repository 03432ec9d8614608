//! The proved reader against the listing's, on books with their names.

use auction_listing::books::Met;
use auction_listing::paper;

/// Reads each of the books; what was answered.
pub fn compare_reading(books: impl Iterator<Item = (String, Vec<u8>)>) -> Met {
    let mut met = Met::default();
    for (name, book) in books {
        let expected = paper::read(&book).err().unwrap_or(0);
        let before = book.clone();
        let answer = auction::read(&book).err().map_or(0, |refusal| refusal.number());
        assert_eq!(answer, u32::from(expected), "{name}: proved left, paper right");
        assert_eq!(book, before, "{name}: the book was written to");
        met.add(expected);
    }
    met
}

/// Every book that differs from this one in a single byte, with its name.
pub fn changes_of(name: &str, book: &[u8]) -> Vec<(String, Vec<u8>)> {
    let changed = auction_listing::books::every_byte_changed(book).enumerate();
    changed.map(|(index, book)| (format!("{name}, change {index} of a byte"), book)).collect()
}
