//! Every refusal 1 to 8: by chosen causes, by changed bytes, at the edges.

use auction_listing::books::{
    book_with_causes, edge_books, every_byte_changed, reader_book, small_book, tiny_book,
    worked_days, Dice, Met, Orders,
};
use auction_listing::paper::Side::{Buy, Sell};
use auction_listing::paper::{clear, price_hour, read, result_length, sheet, HourAnswer};

fn refusal(book: &[u8]) -> u8 {
    read(book).err().unwrap_or(0)
}

fn s6() -> Vec<u8> {
    let found = worked_days().into_iter().find(|(name, _)| *name == "S6");
    found.unwrap().1.book()
}

/// A book of S6 with some bytes set, at (record, byte).
fn s6_with(changes: &[(usize, usize, u8)]) -> Vec<u8> {
    let mut book = s6();
    for &(record, at, value) in changes {
        book[16 * record + at] = value;
    }
    book
}

#[test]
fn random_books_are_accepted() {
    for seed in 0..3_000 {
        assert_eq!(refusal(&small_book(seed)), 0, "small_book({seed})");
        assert_eq!(refusal(&tiny_book(seed)), 0, "tiny_book({seed})");
    }
}

/// Each cause alone and every pair of causes: the lowest is given.
#[test]
fn the_lowest_cause_is_given() {
    let mut dice = Dice::new(1);
    for _ in 0..300 {
        for one in 1..=6 {
            for other in 1..=6 {
                let book = book_with_causes(&[one, other], &mut dice);
                assert_eq!(refusal(&book), one.min(other), "causes {one} and {other}: {book:?}");
            }
        }
    }
}

#[test]
fn all_causes_at_once() {
    let mut dice = Dice::new(2);
    for lowest in 1..=6 {
        let causes: Vec<u8> = (lowest..=6).collect();
        for _ in 0..100 {
            assert_eq!(refusal(&book_with_causes(&causes, &mut dice)), lowest);
        }
    }
}

/// What each byte of the head, a step and a block means, by its refusals. The
/// steps of S6 are records 1 to 4, its blocks 5 and 6.
#[test]
fn single_bytes() {
    let cases: &[(usize, usize, u8, u8)] = &[
        // (record, byte, value, refusal)
        (0, 0, 1, 1),
        (0, 1, 6, 1),
        (0, 2, 1, 3),
        (0, 3, 7, 3),
        (0, 3, 0, 5),
        (0, 5, 0, 5),
        (0, 5, 6, 5),
        (0, 5, 1, 3),
        (0, 6, 0, 2),
        (0, 6, 22, 2),
        (0, 6, 23, 0),
        (0, 6, 25, 0),
        (0, 6, 26, 2),
        (0, 7, 0, 2),
        (0, 7, 2, 0),
        (0, 7, 3, 0),
        (0, 7, 4, 0),
        (0, 7, 5, 2),
        (0, 8, 1, 2),
        (0, 15, 255, 2),
        (1, 0, 2, 3),
        (1, 0, 0, 3),
        (1, 1, 1, 0),
        (1, 1, 2, 4),
        (1, 2, 1, 3),
        (1, 3, 3, 5),
        (1, 3, 5, 3),
        (1, 5, 0, 3),
        (1, 5, 2, 3),
        (2, 5, 1, 3),
        (4, 4, 255, 0),
        (4, 5, 255, 0),
        (4, 3, 1, 3),
        (4, 3, 4, 3),
        (1, 6, 0, 4),
        (1, 6, 24, 0),
        (1, 6, 25, 4),
        (1, 7, 0, 4),
        (1, 7, 255, 0),
        (1, 8, 1, 4),
        (1, 9, 4, 0),
        (1, 9, 5, 4),
        (1, 12, 1, 4),
        (1, 13, 1, 0),
        (1, 13, 2, 4),
        (1, 15, 0, 4),
        (5, 0, 1, 3),
        (5, 0, 3, 3),
        (5, 1, 0, 0),
        (5, 1, 255, 4),
        (5, 2, 8, 3),
        (5, 3, 0, 5),
        (6, 5, 1, 3),
        (5, 6, 1, 4),
        (5, 7, 0, 4),
        (5, 10, 1, 4),
        (5, 10, 128, 4),
        (5, 10, 0, 4),
        (5, 10, 129, 0),
        (5, 8, 255, 0),
        (5, 11, 5, 4),
        (5, 11, 4, 0),
        (5, 14, 1, 4),
        (5, 15, 0, 4),
        (5, 15, 50, 0),
        (5, 15, 51, 4),
    ];
    for &(record, at, value, expected) in cases {
        let book = s6_with(&[(record, at, value)]);
        assert_eq!(refusal(&book), expected, "record {record}, byte {at}, value {value}");
    }
}

/// 3 is looked for on both chains before 4 on either.
#[test]
fn three_before_four_across_the_chains() {
    // The first step's side is wrong, and the last block's kind.
    assert_eq!(refusal(&s6_with(&[(1, 1, 2)])), 4);
    assert_eq!(refusal(&s6_with(&[(1, 1, 2), (6, 0, 1)])), 3);
    // The first block's side is wrong, and the last step's number.
    assert_eq!(refusal(&s6_with(&[(5, 1, 2)])), 4);
    assert_eq!(refusal(&s6_with(&[(5, 1, 2), (4, 5, 3)])), 3);
}

/// A record on no chain is not looked at, whatever is in it.
#[test]
fn garbage_on_no_chain_is_a_stray_record() {
    let mut book = s6();
    book[1] = 8;
    book.extend([255; 16]);
    assert_eq!(refusal(&book), 5);
}

#[test]
fn lengths_and_counts() {
    for length in 0..16 {
        assert_eq!(refusal(&vec![0; length]), 1);
        assert_eq!(refusal(&s6()[..length]), 1);
    }
    assert_eq!(refusal(&[0; 16]), 1);
    let full = |count| {
        let add = |orders: Orders, hour: u32| orders.step(Buy, 1 + hour % 24, 5, 5, 5);
        (0..count).fold(Orders::new(), add).book()
    };
    let book = full(2_047);
    assert_eq!((book.len(), refusal(&book)), (32_768, 0));
    let book = full(2_048);
    assert_eq!((book.len(), refusal(&book)), (32_784, 1));
    // 65537 records, whose count in two bytes reads 1.
    let mut book = full(0);
    book.resize(16 * 65_537, 0);
    assert_eq!(refusal(&book), 1);
}

#[test]
fn five_blocks_of_a_portfolio_on_both_sides_together() {
    let blocks = |count: usize| {
        let add = |orders: Orders, side| orders.block(side, &[1, 24], 100, 10, 255);
        let sides = [Sell, Buy, Sell, Buy, Sell, Buy];
        sides.into_iter().take(count).fold(Orders::new(), add).book()
    };
    assert_eq!(refusal(&blocks(5)), 0);
    assert_eq!(refusal(&blocks(6)), 6);
}

/// A portfolio's steps are not counted.
#[test]
fn steps_of_a_portfolio_are_not_limited() {
    let add = |orders: Orders, _| orders.step(Buy, 1, 100, 10, 7);
    let orders = (0..300).fold(Orders::new(), add).block(Sell, &[1, 2], 5, 5, 7);
    assert_eq!(refusal(&orders.book()), 0);
}

/// Every answer is met often among the books for a reader.
#[test]
fn every_refusal_is_met_often() {
    let met: Met = (0..20_000).map(|seed| refusal(&reader_book(seed))).collect();
    met.has_each(0..=6, 500);
}

#[test]
fn every_refusal_is_met_by_one_byte() {
    let met: Met = every_byte_changed(&s6()).map(|book| refusal(&book)).collect();
    // One byte cannot make 6 out of two blocks.
    met.has_each(0..=5, 1);
}

#[test]
fn edge_books_have_answers() {
    let met: Met = edge_books().iter().map(|book| refusal(book)).collect();
    met.has_each([0, 1, 6], 1);
}

/// Refusal 7 only for a buffer of a wrong length, and after the book's own.
#[test]
fn result_buffers() {
    let book = s6();
    let right = result_length(7);
    assert_eq!(right, 196 + 4 * 7);
    for length in [0, 1, 8, 196, right - 4, right - 1, right + 1, right + 4, 100_000] {
        assert_eq!(clear(&book, length), Err(7));
        assert_eq!(clear(&book[..15], length), Err(1));
    }
    assert_eq!(clear(&book, right).unwrap().len(), right);
    let mut dice = Dice::new(3);
    for cause in 1..=6 {
        let book = book_with_causes(&[cause], &mut dice);
        assert_eq!(clear(&book, 0), Err(cause));
        assert_eq!(clear(&book, 196 + book.len() / 4), Err(cause));
        assert_eq!(sheet(&book), format!("refused;{cause}\n").into_bytes());
    }
}

/// Refusal 8 only for an hour or a set that is not there, after the book's own.
#[test]
fn hours_and_sets() {
    let book = s6();
    for hour in [0, 25, 26, 255, 256, 257, 1 << 31, u32::MAX] {
        assert_eq!(price_hour(&book, 0, hour), HourAnswer::Refused(8), "hour {hour}");
        assert_eq!(price_hour(&book[..15], 0, hour), HourAnswer::Refused(1));
    }
    for position in 0..32 {
        let answer = price_hour(&book, 1 << position, 1);
        assert_eq!(answer == HourAnswer::Refused(8), position >= 2, "position {position}");
    }
    let mut dice = Dice::new(4);
    for cause in 1..=6 {
        let book = book_with_causes(&[cause], &mut dice);
        assert_eq!(price_hour(&book, u32::MAX, 99), HourAnswer::Refused(cause));
        assert_eq!(price_hour(&book, 0, 1), HourAnswer::Refused(cause));
    }
    // With 32 blocks every set is there.
    let book = auction_listing::books::thirty_two_blocks().book();
    assert_ne!(price_hour(&book, u32::MAX, 1), HourAnswer::Refused(8));
    assert_ne!(price_hour(&book, 1 << 31, 24), HourAnswer::Refused(8));
}
