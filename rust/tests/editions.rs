//! Document 02, P1: the limits of editions 1 and 2, written down from the paper, and those of
//! edition 3, which has all of edition 2. What is said here of refusals is the listing's
//! own; `proved_editions` holds the proved calls to the listing.

use auction_listing::books::{
    book_with_causes_of, edition_2_day, edition_edges, every_byte_changed, reader_book_of,
    small_book_of, tiny_book_of, Dice, Met, Orders, FAMILIES,
};
use auction_listing::paper::Side::{Buy, Sell};
use auction_listing::paper::{
    clear, outcome, price_hour, read, result_length, sheet, HourAnswer, Published,
};

/// 0 for an accepted book.
fn refusal(book: &[u8]) -> u8 {
    read(book).err().unwrap_or(0)
}

/// The refusal of orders in an edition.
fn refusal_in(edition: u32, orders: &Orders) -> u8 {
    refusal(&orders.clone().of_edition(edition).book())
}

/// Blocks of one quantity, alternately sells and buys: so many for each portfolio.
fn blocks(quantity: u32, of_portfolios: &[usize]) -> Orders {
    let mut orders = Orders::new();
    for (portfolio, &count) in (1..).zip(of_portfolios) {
        for index in 0..count {
            let side = if index % 2 == 0 { Sell } else { Buy };
            orders = orders.block(side, &[1, 24], 100, quantity, portfolio);
        }
    }
    orders
}

/// "quantity 1 to 250 .. Edition 1 keeps .. 50."
#[test]
fn quantities_of_a_block() {
    for (quantity, in_edition_1, in_edition_2) in [
        (0, 4, 4),
        (1, 0, 0),
        (49, 0, 0),
        (50, 0, 0),
        (51, 4, 0),
        (249, 4, 0),
        (250, 4, 0),
        (251, 4, 4),
        (255, 4, 4),
        // Its low byte alone would be within the limits.
        (256, 4, 4),
        (257, 4, 4),
        (306, 4, 4),
        (65_535, 4, 4),
    ] {
        let orders = blocks(quantity, &[1]);
        assert_eq!(refusal_in(1, &orders), in_edition_1, "{quantity} in edition 1");
        for edition in [2, 3, 4] {
            let found = refusal_in(edition, &orders);
            assert_eq!(found, in_edition_2, "{quantity} in edition {edition}");
        }
        // The last of several blocks as well as the first.
        let mut last = blocks(7, &[4]);
        last.blocks[3].quantity = quantity;
        assert_eq!(refusal_in(1, &last), in_edition_1, "{quantity} last in edition 1");
        for edition in [2, 3, 4] {
            let found = refusal_in(edition, &last);
            assert_eq!(found, in_edition_2, "{quantity} last in edition {edition}");
        }
    }
}

/// A step's quantity has its range in every edition.
#[test]
fn quantities_of_a_step() {
    for edition in [1, 2, 3, 4] {
        for (quantity, expected) in [(1, 0), (251, 0), (99_999, 0), (100_000, 4), (0, 4)] {
            let orders = Orders::new().step(Buy, 1, 5_000, quantity, 1);
            assert_eq!(refusal_in(edition, &orders), expected, "{quantity} in edition {edition}");
        }
    }
}

/// "ten blocks. Edition 1 keeps 5": of one portfolio, on both sides together.
#[test]
fn blocks_of_a_portfolio() {
    for (count, in_edition_1, in_edition_2) in
        [(4, 0, 0), (5, 0, 0), (6, 6, 0), (7, 6, 0), (9, 6, 0), (10, 6, 0), (11, 6, 6), (12, 6, 6)]
    {
        for portfolios in [vec![count], vec![1, count], vec![count, 5, 5]] {
            let orders = blocks(50, &portfolios);
            assert_eq!(refusal_in(1, &orders), in_edition_1, "{portfolios:?} in edition 1");
            for edition in [2, 3, 4] {
                let found = refusal_in(edition, &orders);
                assert_eq!(found, in_edition_2, "{portfolios:?} in edition {edition}");
            }
        }
    }
    // A portfolio's steps are not counted with them.
    let mut orders = blocks(250, &[10]);
    for _ in 0..300 {
        orders = orders.step(Buy, 1, 100, 10, 1);
    }
    assert_eq!(refusal_in(2, &orders), 0);
}

/// 32 blocks in all, whatever the edition.
#[test]
fn blocks_in_all() {
    let fives = [5, 5, 5, 5, 5, 5, 2];
    let tens = [10, 10, 10, 2];
    for edition in [1, 2, 3, 4] {
        assert_eq!(refusal_in(edition, &blocks(50, &fives)), 0, "32 in edition {edition}");
        let more = [&fives[..], &[1]].concat();
        assert_eq!(refusal_in(edition, &blocks(50, &more)), 6, "33 in edition {edition}");
    }
    for edition in [2, 3, 4] {
        assert_eq!(refusal_in(edition, &blocks(250, &tens)), 0);
        assert_eq!(refusal_in(edition, &blocks(250, &[10, 10, 10, 3])), 6);
        assert_eq!(refusal_in(edition, &blocks(250, &[11, 10, 10])), 6);
    }
    assert_eq!(refusal_in(1, &blocks(50, &tens)), 6);
}

/// Of all bytes only 1 to 4 are an edition.
#[test]
fn edition_bytes() {
    let orders = blocks(50, &[5]).step(Buy, 1, 100, 10, 1);
    for edition in 0..=255 {
        let expected = if (1..=4).contains(&edition) { 0 } else { 2 };
        assert_eq!(refusal_in(edition, &orders), expected, "edition {edition}");
        assert_eq!(refusal_in(edition, &Orders::new()), expected, "the head alone");
    }
    // The other bytes of the head are as they were.
    for (at, value) in [(6, 0), (6, 1), (6, 2), (6, 255), (8, 1), (11, 2), (15, 255)] {
        let mut book = orders.clone().of_edition(2).book();
        book[at] = value;
        assert_eq!(refusal(&book), 2, "byte {at} is {value}");
    }
}

/// The edition is known before the blocks are looked at, and 4 comes before 6.
#[test]
fn two_causes_at_once() {
    let cases = [
        // (edition, quantity, of one portfolio, refusal)
        (0, 251, 1, 2),
        (0, 50, 11, 2),
        (5, 251, 11, 2),
        (5, 50, 5, 2),
        (255, 251, 11, 2),
        (1, 51, 6, 4),
        (1, 250, 10, 4),
        (1, 50, 6, 6),
        (2, 51, 6, 0),
        (2, 250, 10, 0),
        (2, 250, 11, 6),
        (2, 251, 10, 4),
        (2, 251, 11, 4),
        (2, 50, 33, 6),
        (3, 51, 6, 0),
        (3, 250, 10, 0),
        (3, 250, 11, 6),
        (3, 251, 10, 4),
        (3, 251, 11, 4),
        (4, 51, 6, 0),
        (4, 250, 10, 0),
        (4, 250, 11, 6),
        (4, 251, 10, 4),
        (4, 251, 11, 4),
    ];
    for (edition, quantity, count, expected) in cases {
        let orders = blocks(quantity, &[count]);
        let found = refusal_in(edition, &orders);
        assert_eq!(found, expected, "edition {edition}, {count} blocks of {quantity}");
        // With a record on no chain: 5 comes between.
        let mut book = orders.of_edition(edition).book();
        book[1] += 1;
        book.extend([0; 16]);
        let with_stray = if [2, 4].contains(&expected) { expected } else { 5 };
        assert_eq!(refusal(&book), with_stray, "a stray record, edition {edition}");
        // With a wrong kind at the first block: 3 comes before 4.
        book[16] = 3;
        let with_kind = if expected == 2 { 2 } else { 3 };
        assert_eq!(refusal(&book), with_kind, "a wrong kind, edition {edition}");
        // With a wrong length nothing else is looked at.
        book.push(0);
        assert_eq!(refusal(&book), 1);
    }
}

/// Every boundary with every other, by the words of documents 01 and 02.
#[test]
fn every_boundary_with_every_other() {
    let expected = |edition: u32, quantity: u32, of_one: usize, in_all: usize| {
        let (most_quantity, most_of_one) = match edition {
            1 => (50, 5),
            2..=4 => (250, 10),
            _ => return 2,
        };
        if quantity < 1 || quantity > most_quantity {
            return 4;
        }
        if of_one > most_of_one || in_all > 32 {
            return 6;
        }
        0
    };
    let mut met = Met::default();
    for edition in [0, 1, 2, 3, 4, 5, 255] {
        for quantity in [0, 1, 50, 51, 250, 251] {
            for of_one in [1, 5, 6, 10, 11] {
                for in_all in [of_one, 31, 32, 33] {
                    // The other blocks in portfolios of one.
                    let portfolios = [vec![of_one], vec![1; in_all - of_one]].concat();
                    let found = refusal_in(edition, &blocks(quantity, &portfolios));
                    let name = format!("edition {edition}, {quantity}, {of_one} of {in_all}");
                    assert_eq!(found, expected(edition, quantity, of_one, in_all), "{name}");
                    met.add(found);
                }
            }
        }
    }
    met.has_each([0, 2, 4, 6], 20);
}

/// Each cause alone and every pair of causes, in books of edition 2: the lowest is given.
#[test]
fn the_lowest_cause_is_given_in_edition_2() {
    let mut dice = Dice::new(1);
    for _ in 0..200 {
        for one in 1..=6 {
            for other in 1..=6 {
                let book = book_with_causes_of(2, &[one, other], &mut dice);
                assert_eq!(refusal(&book), one.min(other), "causes {one} and {other}: {book:?}");
            }
        }
    }
}

#[test]
fn random_books_of_edition_2_are_accepted() {
    for seed in 0..3_000 {
        for book in [small_book_of(2, seed), tiny_book_of(2, seed)] {
            assert_eq!((refusal(&book), book[7]), (0, 2), "seed {seed}");
        }
    }
}

/// Every answer is met often among the books for a reader, and at every edge.
#[test]
fn every_refusal_is_met_in_edition_2() {
    let met: Met = (0..20_000).map(|seed| refusal(&reader_book_of(2, seed))).collect();
    met.has_each(0..=6, 500);
    let book = small_book_of(2, 1);
    let met: Met = every_byte_changed(&book).map(|book| refusal(&book)).collect();
    met.has_each(0..=5, 1);
    let met: Met = edition_edges().iter().map(|book| refusal(book)).collect();
    met.has_each([0, 2, 4, 6], 50);
}

/// What is published of a book, and its prices under a set.
fn published(book: &[u8]) -> (Vec<u8>, Vec<u8>, Vec<HourAnswer>) {
    let blocks = read(book).expect("accepted").blocks.len();
    let result = clear(book, result_length(book.len() / 16)).expect("cleared");
    let some_set = 0x2d5 & ((1 << blocks) - 1);
    let prices = (0..=25).map(|hour| price_hour(book, some_set, hour)).collect();
    (result, sheet(book), prices)
}

/// Where both editions accept the orders, nothing else depends on the edition.
#[test]
fn the_same_orders_give_the_same_result() {
    let mut met = Met::default();
    for seed in 0..1_000 {
        for edition in [1, 2] {
            let book = small_book_of(edition, seed);
            let mut other = book.clone();
            other[7] = 3 - book[7];
            let answer = refusal(&other);
            met.add(answer);
            match (edition, answer) {
                (_, 0) => assert!(published(&book) == published(&other), "seed {seed}"),
                (2, 4) | (2, 6) => {}
                _ => panic!("seed {seed}: {answer} in edition {}", 3 - edition),
            }
        }
    }
    met.has_each([0], 1_000);
    met.has_each([4], 500);
    met.has_each([6], 20);
}

/// Of ten blocks of one portfolio that together would meet every buy, the one that adds
/// least is left out: the largest.
#[test]
fn ten_blocks_of_a_portfolio() {
    let orders = edition_2_day();
    assert_eq!(refusal_in(1, &orders), 4);
    let book = orders.book();
    let accepted = read(&book).expect("accepted");
    assert_eq!((accepted.edition, accepted.blocks.len()), (2, 10));
    let result = Published::from_bytes(&clear(&book, result_length(15)).expect("cleared"));
    let hours: Vec<(u32, u32)> =
        result.prices.iter().copied().zip(result.traded.iter().copied()).collect();
    assert_eq!(hours[..2], [(3_000, 1_346), (3_000, 1_346)]);
    assert_eq!(result.set(&accepted), 0b11_1101_1111);
    // Two hours of 1346 x 2000, and what each taken block adds in both hours.
    let added = [50_000, 20_000, 60_000, 200_000, 10_200, 24_000, 36_000, 90_000, 22_500];
    assert_eq!(result.welfare, 2 * 1_346 * 2_000 + added.iter().sum::<u64>());
    assert_eq!(result.welfare, 5_896_700);
    // All ten would meet every buy, and none of them is paid at the price.
    for hour in [1, 2] {
        let all = HourAnswer::Cleared { low: 1, high: 3_000, price: 1_500 };
        assert_eq!(price_hour(&book, 0b11_1111_1111, hour), all);
    }
}

/// The families of edition 2 are of edition 2, and as wide as they say.
#[test]
fn families_of_edition_2() {
    for (name, narrowest, widest) in [
        ("edition 2, large", 2_000, 8_000),
        ("edition 2, widest", 8_000, 8_000),
        ("edition 2, small", 1_000, 1_600),
    ] {
        let family = FAMILIES.iter().find(|family| family.name == name).expect(name);
        for seed in 0..20 {
            let book = read(&(family.book)(seed, 32)).expect("accepted");
            assert_eq!((book.edition, book.blocks.len(), book.steps.len()), (2, 32, 2015));
            let in_hour = |hour| {
                let blocks = book.blocks.iter().filter(|block| block.has_hour(hour));
                blocks.map(|block| block.quantity).sum::<u32>()
            };
            let most = (1..=24).map(in_hour).max().unwrap_or(0);
            assert!((narrowest..=widest).contains(&most), "{name}, seed {seed}: {most}");
            assert!(book.blocks.iter().any(|block| block.quantity > 50), "{name}, seed {seed}");
            assert!(outcome(&book, 0).is_some(), "{name}, seed {seed}");
        }
    }
}
