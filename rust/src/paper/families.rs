//! What the program family-print writes: the gain of each family of blocks.

use super::day::Published;
use super::read::{Block, Book};
use super::sheet::{published, refusal_line};

/// The family report of a book's published outcome, or `refused;` and the number.
pub fn families(book: &[u8]) -> Vec<u8> {
    published(book).map_or_else(refusal_line, |(book, result)| families_of(&book, &result))
}

/// The family report of a book and the bytes of its result.
pub fn families_of(book: &Book, result: &[u8]) -> Vec<u8> {
    let published = Published::from_bytes(result);
    let mut lines = String::from("block;gain\n");
    for root in book.blocks.iter().filter(|block| parent_of(book, block.number).is_none()) {
        let family = book.blocks.iter().filter(|it| root_of(book, it.number) == root.number);
        let gain: u64 = family.map(|block| gain_of(book, block, &published)).sum();
        lines += &format!("{};{gain}\n", root.number);
    }
    lines.into_bytes()
}

/// The parent of a block, by numbers, where it has one.
fn parent_of(book: &Book, number: u32) -> Option<u32> {
    book.links.iter().find(|link| link.child == number).map(|link| link.parent)
}

/// The block without a parent from which a block descends, found upwards: it is itself
/// where it has no parent. Parents have lower numbers, so that the way ends.
pub fn root_of(book: &Book, number: u32) -> u32 {
    parent_of(book, number).map_or(number, |parent| root_of(book, parent))
}

/// "quantity times the distance between the price sum and the block's price times its hour
/// count", each hour counted as often as the day has it; 0 for a block that is left out.
fn gain_of(book: &Book, block: &Block, published: &Published) -> u64 {
    if published.row(block.record) != block.quantity {
        return 0;
    }
    let hours = book.hours_of(block);
    let prices = hours.iter().map(|&hour| u64::from(published.prices[hour as usize - 1]));
    let limit = u64::from(block.price) * hours.len() as u64;
    u64::from(block.quantity) * prices.sum::<u64>().abs_diff(limit)
}
