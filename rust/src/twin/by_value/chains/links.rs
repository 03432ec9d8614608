// Written by `twin_source` from crates/chains/src/links.rt.
// Cause 10: a link that names a block not in the book, or whose parent's number is not below its child's. Assumes nothing.

use crate::twin::by_value::chains::following::chained;
use crate::twin::by_value::records::{Link, first_block, first_link, link_at, number_of};

// Whether a block of the book has this number.
fn has_block(book: &[u8], number: u16) -> bool
{
    chained(book, first_block(book)).any(|i| number_of(book, i) == number)
}

// Cause 10 at one link.
fn is_misnamed(book: &[u8], link: Link) -> bool
{
    let child = link.child;
    let parent = link.parent;
    !has_block(book, child) | !has_block(book, parent) | (child <= parent)
}

// Cause 10 along the links.
pub fn has_wrong_link(book: &[u8]) -> bool
{
    chained(book, first_link(book)).any(|i| is_misnamed(book, link_at(book, i)))
}
