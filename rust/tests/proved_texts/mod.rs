//! What the proved calls write of a book.

use auction_listing::paper::Texts;

/// The sheet, the family report and the cash sheet of any bytes.
pub fn proved_texts(book: &[u8]) -> Texts {
    Texts {
        sheet: auction::sheet(book).into_bytes(),
        families: auction::family_report(book).into_bytes(),
        cash: auction::cash_sheet(book).into_bytes(),
    }
}
