//! The proved clearing of a day-ahead auction: safe calls of `libauction.a`, which
//! `./build library` makes at the root of the repository.
//!
//! A book is a string of bytes, and so is a list (`docs/FORMATS.md`). Every call takes any
//! bytes: what is no book, or no list, is refused, with the number and the words of the
//! cause. The calls share nothing, so that any number of threads may call at once; each needs
//! a stack of at most [`STACK`] bytes, half of what a Rust thread has by itself.
//!
//! ```
//! let book = std::fs::read("../../samples/S5.book").expect("a sample");
//! let outcome = auction::clear(&book)?;
//! assert_eq!(outcome.welfare, 410_000);
//! assert_eq!((outcome.price(1), outcome.traded(1)), (3000, 100));
//! assert_eq!(outcome.taken().collect::<Vec<u32>>(), [1]);
//! assert_eq!(outcome.step(2), Some(50));
//!
//! let book = std::fs::read("../../samples/linked-both.book").expect("a sample");
//! assert_eq!(auction::families(&book)?, [auction::Family { block: 1, gain: 100_000 }]);
//! let cash = auction::cash(&book)?;
//! assert_eq!(cash.portfolio(1).map(|account| account.paid), Some(800_000));
//! assert_eq!(cash.all.paid, cash.all.received);
//!
//! let list = std::fs::read("../../samples/wind.list").expect("a sample");
//! let range = auction::price_range(&list)?;
//! assert_eq!((range.least, range.greatest), (750, 2500));
//!
//! let refused = auction::clear(b"no book").unwrap_err();
//! assert_eq!((refused, refused.number()), (auction::Refusal::Length, 1));
//! assert!(refused.to_string().starts_with("refused with 1: length not 16 x R"));
//! # Ok::<(), auction::Refusal>(())
//! ```

mod cash;
mod families;
mod lines;
mod outcome;
pub mod raw;
mod refusal;

pub use cash::{Account, Cash};
pub use families::Family;
pub use outcome::{Kind, Outcome, Row};
pub use refusal::Refusal;

/// The numbers of `include/auction.h`, without their `AUCTION_`.
pub mod header {
    include!(concat!(env!("OUT_DIR"), "/header.rs"));
}

/// The bytes of stack that a call needs at most.
pub const STACK: usize = header::STACK as usize;

/// What pricing an hour gives for an accepted book.
#[derive(Clone, Copy, Debug, PartialEq, Eq)]
pub enum Price {
    /// The least and the greatest clearing price, and the price between them, in cents per MWh.
    Clears { low: u32, high: u32, price: u32 },
    /// No price clears the hour under the set.
    DoesNotClear,
}

/// The least and the greatest price of an hour whose quantities are uncertain, in cents per MWh.
#[derive(Clone, Copy, Debug, PartialEq, Eq, Hash)]
pub struct PriceRange {
    pub least: u32,
    pub greatest: u32,
}

/// Reads a book: accepted, or refused.
pub fn read(book: &[u8]) -> Result<(), Refusal> {
    // SAFETY: pointer and length are those of one live slice, which the call only reads and
    // does not keep.
    Refusal::unless_done(unsafe { raw::auction_read(book.as_ptr(), book.len()) })
}

/// Prices an hour, 1 to 24, under a set of blocks, whose lowest bit is the first block of
/// the chain. Hour 3 of a day of 23 hours is refused.
pub fn price(book: &[u8], set: u32, hour: u32) -> Result<Price, Refusal> {
    let part = |part| {
        // SAFETY: as in `read`.
        unsafe { raw::auction_price(book.as_ptr(), book.len(), set, hour, part) }
    };
    match part(header::PART_ANSWER) {
        header::DOES_NOT_CLEAR => Ok(Price::DoesNotClear),
        answer => Refusal::unless_done(answer).map(|()| Price::Clears {
            low: part(header::PART_LOW),
            high: part(header::PART_HIGH),
            price: part(header::PART_PRICE),
        }),
    }
}

/// Clears the day: what is published of a book.
pub fn clear(book: &[u8]) -> Result<Outcome, Refusal> {
    let mut result = vec![0; result_size(book)];
    clear_into(book, &mut result)?;
    Ok(Outcome::of(book, &result))
}

/// Clears the day into a result of [`result_size`] bytes. Where the book is refused, or the
/// result has another size, it stays as it was.
pub fn clear_into(book: &[u8], result: &mut [u8]) -> Result<(), Refusal> {
    let (bytes, length) = (result.as_mut_ptr(), result.len());
    // SAFETY: as in `read`; the result is one live slice that only this call writes.
    Refusal::unless_done(unsafe { raw::auction_clear(book.as_ptr(), book.len(), bytes, length) })
}

/// The bytes of the result of an accepted book.
pub fn result_size(book: &[u8]) -> usize {
    let records = book.len() / header::RECORD_SIZE as usize;
    header::RESULT_HEAD as usize + header::RESULT_RECORD as usize * records
}

/// The sheet of a book, or the line `refused;` and the number.
pub fn sheet(book: &[u8]) -> String {
    text(sheet_into, book, header::MOST_SHEET)
}

/// The length of a book's [`sheet`], which is put at the start of `out` where it has room.
pub fn sheet_into(book: &[u8], out: &mut [u8]) -> usize {
    put(raw::auction_sheet, book, out)
}

/// The gain of each family at the published prices, in rising number of the block that has
/// no parent. A block without links is its own family.
pub fn families(book: &[u8]) -> Result<Vec<Family>, Refusal> {
    families::decoded(&family_report(book))
}

/// The family report of a book, or the line `refused;` and the number.
pub fn family_report(book: &[u8]) -> String {
    text(families_into, book, header::MOST_FAMILIES)
}

/// The length of a book's [`family_report`], which is put at the start of `out` where it has
/// room.
pub fn families_into(book: &[u8], out: &mut [u8]) -> usize {
    put(raw::auction_families, book, out)
}

/// What each portfolio buys and sells, pays and receives at the published prices, and all
/// orders together.
pub fn cash(book: &[u8]) -> Result<Cash, Refusal> {
    cash::decoded(&cash_sheet(book))
}

/// The cash sheet of a book, or the line `refused;` and the number.
pub fn cash_sheet(book: &[u8]) -> String {
    text(cash_into, book, header::MOST_CASH)
}

/// The length of a book's [`cash_sheet`], which is put at the start of `out` where it has
/// room.
pub fn cash_into(book: &[u8], out: &mut [u8]) -> usize {
    put(raw::auction_cash, book, out)
}

/// The text of a book, of at most so many bytes.
fn text(put_into: fn(&[u8], &mut [u8]) -> usize, book: &[u8], most: u32) -> String {
    let mut out = vec![0; most as usize];
    let length = put_into(book, &mut out);
    out.truncate(length);
    String::from_utf8(out).expect("plain text")
}

/// A call that puts a text at the start of `out` where it has room; the text's length.
type Put = unsafe extern "C" fn(*const u8, usize, *mut u8, usize) -> u32;

fn put(call: Put, book: &[u8], out: &mut [u8]) -> usize {
    let (bytes, length) = (out.as_mut_ptr(), out.len());
    // SAFETY: as in `clear_into`.
    unsafe { call(book.as_ptr(), book.len(), bytes, length) as usize }
}

/// The least and the greatest price of an hour without blocks, over all quantities between the
/// low and the high figure of each step of a list; no steps are a list too. What is no list is
/// refused with [`Refusal::List`].
pub fn price_range(list: &[u8]) -> Result<PriceRange, Refusal> {
    let part = |part| {
        // SAFETY: as in `read`.
        unsafe { raw::auction_range(list.as_ptr(), list.len(), part) }
    };
    Refusal::unless_done(part(header::RANGE_ANSWER)).map(|()| PriceRange {
        least: part(header::RANGE_LEAST),
        greatest: part(header::RANGE_GREATEST),
    })
}
