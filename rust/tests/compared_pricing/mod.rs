//! The proved pricing against the listing's, on books with their names.

use crate::answers::hour_answer;
use auction_listing::paper::{self, HourAnswer};

/// A book with a set of blocks and an hour, and the name.
pub type Case = (String, (Vec<u8>, u32, u32));

/// Prices each case; all three answers are met.
pub fn compare_pricing(cases: impl Iterator<Item = Case>) {
    let mut met = [0u64; 3];
    for (name, (book, set, hour)) in cases {
        let expected = paper::price_hour(&book, set, hour);
        assert_eq!(hour_answer(auction::price(&book, set, hour)), expected, "{name}");
        assert_eq!(parts(&book, set, hour), expected.parts(), "{name}");
        met[match expected {
            HourAnswer::Cleared { .. } => 0,
            HourAnswer::NotClearing => 1,
            HourAnswer::Refused(_) => 2,
        }] += 1;
    }
    println!("cleared, not clearing, refused: {met:?}");
    assert!(met.iter().all(|&times| times > 0), "an answer was never met");
}

/// The parts of an answer as the call gives them.
fn parts(book: &[u8], set: u32, hour: u32) -> [u32; 4] {
    // SAFETY: pointer and length are those of one live slice.
    let part =
        |part| unsafe { auction::raw::auction_price(book.as_ptr(), book.len(), set, hour, part) };
    [0, 1, 2, 3].map(part)
}
