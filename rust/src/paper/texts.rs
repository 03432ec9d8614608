//! What the programs write of a book, from one clearing.

use super::cash::cash_of;
use super::families::families_of;
use super::read::Book;
use super::sheet::{published, refusal_line, sheet_of};
use std::fmt;

/// The sheet, the family report and the cash sheet, as bytes of text.
#[derive(Clone, PartialEq, Eq)]
pub struct Texts {
    pub sheet: Vec<u8>,
    pub families: Vec<u8>,
    pub cash: Vec<u8>,
}

impl Texts {
    /// The texts of a book and the bytes of its result.
    pub fn of_result(book: &Book, result: &[u8]) -> Texts {
        Texts {
            sheet: sheet_of(book, result),
            families: families_of(book, result),
            cash: cash_of(book, result),
        }
    }
}

/// As text, which a failure shows better than bytes.
impl fmt::Debug for Texts {
    fn fmt(&self, out: &mut fmt::Formatter) -> fmt::Result {
        let all = [&self.sheet, &self.families, &self.cash];
        all.iter().try_for_each(|text| write!(out, "\n{}", String::from_utf8_lossy(text)))
    }
}

/// The texts of a book's published outcome, or in place of each `refused;` and the number.
pub fn texts(book: &[u8]) -> Texts {
    match published(book) {
        Ok((book, result)) => Texts::of_result(&book, &result),
        Err(refusal) => {
            let [sheet, families, cash] = [(); 3].map(|()| refusal_line(refusal));
            Texts { sheet, families, cash }
        }
    }
}
