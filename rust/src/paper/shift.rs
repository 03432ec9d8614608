//! Document 02, P7: the shift of a set's prices, from edition 4 on.

use super::day::{keeps_limit_over, taken_blocks};
use super::read::{Block, Book};

/// "a set has one shift t for the day, 0 to 1000"; the prices at 500 are the middle ones.
pub const MIDDLE_SHIFT: u32 = 500;
const LAST_SHIFT: u32 = 1_000;

/// The edition from which on prices can give way.
const FIRST_SHIFT_EDITION: u32 = 4;

/// L and H of hours 1 to 24; 0 and 0 for an hour that the day does not have.
pub type Ends = [(u32, u32); 24];

/// "Each hour's price is L plus (H − L) times t divided by 1000, rounded down."
pub fn shifted(low: u32, high: u32, t: u32) -> u32 {
    low + (high - low) * t / LAST_SHIFT
}

/// The prices of all hours at a shift.
pub fn prices_at_shift(ends: &Ends, t: u32) -> [u32; 24] {
    ends.map(|(low, high)| shifted(low, high, t))
}

/// Every shift, "the t nearest 500" first, "of two the smaller".
pub fn shifts() -> impl Iterator<Item = u32> {
    let beside = |far| [MIDDLE_SHIFT - far, MIDDLE_SHIFT + far];
    std::iter::once(MIDDLE_SHIFT).chain((1..=MIDDLE_SHIFT).flat_map(beside))
}

/// The shift of a set whose hours have these ends: of those that its edition has the first
/// that keeps all its blocks. Nothing where none does: then the set is unlawful.
pub fn shift_of(book: &Book, set: u32, ends: &Ends) -> Option<u32> {
    // The hours of each block are looked up once, for up to 1001 shifts.
    let taken: Vec<(&Block, Vec<u32>)> =
        taken_blocks(&book.blocks, set).map(|block| (block, book.hours_of(block))).collect();
    let keeps_all = |&t: &u32| {
        let price = |hour: u32| {
            let (low, high) = ends[hour as usize - 1];
            shifted(low, high, t)
        };
        taken.iter().all(|(block, hours)| keeps_limit_over(block, hours, price))
    };
    if book.edition < FIRST_SHIFT_EDITION {
        return Some(MIDDLE_SHIFT).filter(keeps_all);
    }
    shifts().find(keeps_all)
}
