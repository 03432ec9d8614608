// Written by `twin_source` from crates/chains/src/following.rt.
// The records that hang together by `next`, from a first one to the zero that ends them, at most as many as the book counts. Assumes nothing.

use crate::twin::by_value::records::{next_of, record_count};

// A walk along a chain: the index that comes next, and how many may still come.
#[derive(Clone, Copy)]
pub struct Walk<'a> {
    book: &'a [u8],
    at: u16,
    left: u16,
}

impl<'a> Iterator for Walk<'a> {
    type Item = u16;

    fn next(&mut self) -> Option<u16> {
        if self.left == 0 || self.at == 0 {
            return None;
        }
        let i = self.at;
        self.at = next_of(self.book, i);
        self.left -= 1;
        Some(i)
    }
}

// The walk that starts at record i; none where i is 0.
pub fn chained(book: &[u8], i: u16) -> Walk<'_>
{
    Walk {
        book,
        at: i,
        left: record_count(book),
    }
}
