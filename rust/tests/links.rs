//! Document 02, P6: linked blocks and the family report, written down from the paper. What
//! is said here is the listing's own; `proved_links` holds the proved calls to the listing.

use auction_listing::books::{
    book_with_causes_of, count, every_byte_changed, link_edges, link_upwards, link_without_parent,
    linked_days, reader_book_of, small_book_on, small_orders_of, small_orders_on, worked_days,
    Dice, LinkOrder, Met, Orders, Shape, CHAIN_OF_32_TAKEN, DAYS, FAMILIES,
};
use auction_listing::paper::Side::{Buy, Sell};
use auction_listing::paper::{
    clear, families, families_of, holds_parents, keeps_limit, outcome, price_hour, read,
    result_bytes, result_length, root_of, sheet, Block, Book, HourAnswer, Published,
};

/// 0 for an accepted book.
fn refusal(book: &[u8]) -> u8 {
    read(book).err().unwrap_or(0)
}

fn published(orders: &Orders) -> Published {
    let book = orders.book();
    Published::from_bytes(&clear(&book, result_length(book.len() / 16)).expect("cleared"))
}

/// The published set; the lowest bit stands for the first block.
fn published_set(orders: &Orders) -> u32 {
    published(orders).set(&read(&orders.book()).expect("accepted"))
}

fn families_text(orders: &Orders) -> String {
    String::from_utf8(families(&orders.book())).expect("text")
}

fn day(name: &str) -> Orders {
    linked_days().into_iter().find(|(other, _)| *other == name).expect(name).1
}

/// The same orders without their links.
fn unlinked(orders: &Orders) -> Orders {
    Orders { links: Vec::new(), ..orders.clone() }
}

/// Four blocks with gaps between their numbers: 4 and 9 below 2, 6 below 4.
fn base() -> Orders {
    let mut orders = Orders::new().of_edition(3).step(Buy, 1, 5_000, 200, 1);
    for (number, price) in [(2, 2_900), (4, 2_800), (6, 2_700), (9, 2_600)] {
        orders = orders.block(Sell, &[1, 2, 4], price, 50, 3);
        orders.blocks.last_mut().unwrap().number = number;
    }
    orders.link(4, 2).link(6, 4).link(9, 2)
}

/// The refusal of [`base`] after a change.
fn base_with(change: impl Fn(&mut Orders)) -> u8 {
    let mut orders = base();
    change(&mut orders);
    refusal(&orders.book())
}

/// The refusal of [`base`] with a byte set, at (record, byte): the step is record 1, the
/// blocks are 2 to 5, the links 6 to 8.
fn base_byte(record: usize, at: usize, value: u8) -> u8 {
    let mut book = base().book();
    book[16 * record + at] = value;
    refusal(&book)
}

/// "kind 3, byte 1 zero, next, child's block number in 4-5, parent's in 6-7, the rest zero."
#[test]
fn links_are_read() {
    let accepted = read(&base().book()).expect("accepted");
    let links: Vec<(usize, u32, u32)> =
        accepted.links.iter().map(|link| (link.record, link.child, link.parent)).collect();
    assert_eq!(links, [(6, 4, 2), (7, 6, 4), (8, 9, 2)]);
    let book = base().book();
    assert_eq!(book[8..10], [0, 6]);
    assert_eq!(book[16 * 7..16 * 8], [3, 0, 0, 8, 0, 6, 0, 4, 0, 0, 0, 0, 0, 0, 0, 0]);
    // High bytes count: block 256 + 9 below block 256 + 2.
    let mut high = base();
    high.blocks.iter_mut().for_each(|block| block.number += 256);
    assert_eq!(refusal(&high.book()), 10);
    high.links
        .iter_mut()
        .for_each(|link| (link.child, link.parent) = (link.child + 256, link.parent + 256));
    assert_eq!(refusal(&high.book()), 0);
}

/// "Edition 3 has all of edition 2 and a third chain"; "head bytes 10-15 stay 0"; editions 1
/// and 2 keep 8 to 15; edition 4 "has all of edition 3".
#[test]
fn head_bytes() {
    for (edition, at, value) in (1..=4)
        .flat_map(|edition| (8..16).flat_map(move |at| [1, 6, 255].map(|v| (edition, at, v))))
    {
        let mut book = unlinked(&base()).of_edition(edition).book();
        assert_eq!(refusal(&book), 0, "edition {edition}");
        book[at] = value;
        let expected = if edition >= 3 && at < 10 { 3 } else { 2 };
        assert_eq!(refusal(&book), expected, "edition {edition}, byte {at}");
    }
    for at in 10..16 {
        assert_eq!(base_byte(0, at, 1), 2, "byte {at}");
    }
    // With links in it, a book is of edition 3 or 4 and no other.
    for edition in 0..=255 {
        let expected = if [3, 4].contains(&edition) { 0 } else { 2 };
        assert_eq!(refusal(&base().of_edition(edition).book()), expected, "edition {edition}");
        let none = if (1..=4).contains(&edition) { 0 } else { 2 };
        let book = unlinked(&base()).of_edition(edition).book();
        assert_eq!(refusal(&book), none, "edition {edition} without links");
    }
    for day in 0..=255 {
        let expected = if DAYS.contains(&day) { 0 } else { 2 };
        assert_eq!(refusal(&base().on_day_of(day).book()), expected, "{day} hours");
    }
}

/// 3 on the chain of links: "an index of R or more, a kind not the chain's, or a number that
/// does not rise (a first one of 0 included)".
#[test]
fn three_on_the_links() {
    // (record, byte, value, refusal)
    let cases = [
        (0, 9, 9, 3),
        (0, 8, 1, 3),
        (0, 9, 1, 3),
        (0, 9, 2, 3),
        (0, 9, 0, 5),
        (0, 9, 7, 5),
        (6, 0, 0, 3),
        (6, 0, 1, 3),
        (6, 0, 2, 3),
        (6, 0, 4, 3),
        (8, 0, 2, 3),
        (6, 3, 9, 3),
        (6, 2, 8, 3),
        (6, 3, 6, 3),
        (6, 3, 5, 3),
        (6, 3, 8, 5),
        (6, 3, 0, 5),
        (8, 3, 6, 3),
        (8, 3, 8, 3),
        (8, 3, 1, 3),
        (6, 5, 0, 3),
        (6, 5, 6, 3),
        (6, 5, 7, 3),
        (7, 5, 4, 3),
        (7, 5, 3, 3),
        (8, 5, 6, 3),
        // The other chains do not lead to a link either.
        (1, 3, 6, 3),
        (5, 3, 6, 3),
        (0, 3, 6, 3),
        (0, 5, 8, 3),
    ];
    for (record, at, value, expected) in cases {
        let found = base_byte(record, at, value);
        assert_eq!(found, expected, "record {record}, byte {at}, value {value}");
    }
}

/// 4 on the chain of links: its byte 1 and its bytes 8 to 15.
#[test]
fn four_on_the_links() {
    for record in 6..=8 {
        for at in [1].into_iter().chain(8..16) {
            for value in [1, 128, 255] {
                assert_eq!(base_byte(record, at, value), 4, "record {record}, byte {at}");
            }
        }
    }
    // 3 on any chain comes before 4 on any.
    assert_eq!(base_with(|orders| orders.blocks[0].quantity = 251), 4);
    let mut book = base().of_edition(3).book();
    (book[16 * 6 + 1], book[16 + 5]) = (1, 0);
    assert_eq!(refusal(&book), 3);
    let mut book = base().of_edition(3).book();
    (book[16 + 1], book[16 * 8 + 5]) = (2, 0);
    assert_eq!(refusal(&book), 3);
}

/// 5: a link on no chain, in every edition.
#[test]
fn a_link_on_no_chain() {
    for edition in [1, 2, 3, 4] {
        let orders = unlinked(&base()).of_edition(edition);
        let mut book = [&orders.book()[..], &[3, 0, 0, 0, 0, 4, 0, 2], &[0; 8]].concat();
        book[1] += 1;
        assert_eq!(refusal(&book), 5, "edition {edition}");
    }
}

/// 10: "a link that names a block not in the book (a parent of 0 included) or whose parent
/// number is not below the child's": every pair of numbers at every place.
#[test]
fn ten_by_every_pair() {
    let numbers = [0, 1, 2, 3, 4, 5, 6, 7, 8, 9, 10, 256 + 2, 256 + 4, 65_535];
    let blocks = [2, 4, 6, 9];
    let mut met = Met::default();
    for place in 0..3 {
        for (child, parent) in numbers.iter().flat_map(|&c| numbers.map(|p| (c, p))) {
            let mut orders = base();
            orders.links[place] = LinkOrder { child, parent };
            let children: Vec<u32> = orders.links.iter().map(|link| link.child).collect();
            let rises = child > 0 && children.windows(2).all(|two| two[0] < two[1]);
            let is_link = blocks.contains(&child) && blocks.contains(&parent) && parent < child;
            let expected = match (rises, is_link) {
                (false, _) => 3,
                (_, false) => 10,
                _ => 0,
            };
            let found = refusal(&orders.book());
            assert_eq!(found, expected, "link {place}: child {child}, parent {parent}");
            met.add(found);
        }
    }
    met.has_each([0, 3, 10], 5);
}

/// "after 9 and before 7, as is every later cause of a book by itself", so before 8.
#[test]
fn ten_among_the_others() {
    for orders in [link_without_parent(), link_upwards()] {
        let book = orders.book();
        assert_eq!(refusal(&book), 10);
        for length in [0, 196, result_length(book.len() / 16), 100_000] {
            assert_eq!(clear(&book, length), Err(10), "a result of {length} bytes");
        }
        for (set, hour) in [(0, 1), (0, 0), (0, 25), (u32::MAX, 1), (u32::MAX, 99)] {
            assert_eq!(price_hour(&book, set, hour), HourAnswer::Refused(10));
        }
        assert_eq!(
            (sheet(&book), families(&book)),
            (b"refused;10\n".to_vec(), b"refused;10\n".to_vec())
        );
        let with = |change: &dyn Fn(&mut Orders)| {
            let mut changed = orders.clone();
            change(&mut changed);
            refusal(&changed.book())
        };
        assert_eq!(with(&|orders| orders.links.clear()), 0);
        assert_eq!(with(&|orders| orders.edition = 2), 2);
        assert_eq!(with(&|orders| orders.links[0].child = 0), 3);
        assert_eq!(with(&|orders| orders.blocks[1].number = 1), 3);
        assert_eq!(with(&|orders| orders.steps[0].price = 0), 4);
        assert_eq!(with(&|orders| orders.day = 23), 10);
        assert_eq!(with(&|orders| (orders.day, orders.steps[0].hour) = (23, 3)), 9);
        let with_blocks = |count: u32, portfolio: u32| {
            let add = |orders: Orders, _| orders.block(Buy, &[1, 2], 5, 5, portfolio);
            refusal(&(0..count).fold(orders.clone(), add).book())
        };
        assert_eq!((with_blocks(8, 3), with_blocks(9, 3)), (10, 6));
        let mut stray = [&book[..], &[0; 16]].concat();
        stray[1] += 1;
        assert_eq!(refusal(&stray), 5);
        assert_eq!(refusal(&book[..book.len() - 1]), 1);
    }
}

/// Each cause alone and every pair of causes in edition 3: the first of them is given.
#[test]
fn the_first_cause_is_given() {
    let mut dice = Dice::new(1);
    let causes = [1, 2, 3, 4, 5, 6, 10];
    for (one, other) in causes.iter().flat_map(|&one| causes.map(|other| (one, other))) {
        for _ in 0..200 {
            let book = book_with_causes_of(3, &[one, other], &mut dice);
            assert_eq!(refusal(&book), one.min(other), "causes {one} and {other}: {book:?}");
        }
    }
}

#[test]
fn every_refusal_is_met() {
    let met: Met = (0..20_000).map(|seed| refusal(&reader_book_of(3, seed))).collect();
    met.has_each([0, 1, 2, 3, 4, 5, 6, 10], 500);
    let met: Met = link_edges().iter().map(|book| refusal(book)).collect();
    met.has_each([0, 2, 3, 4, 5, 6, 10], 10);
    met.has_each([1, 9], 5);
    let met: Met = every_byte_changed(&base().book()).map(|book| refusal(&book)).collect();
    met.has_each([0, 1, 2, 3, 4, 5, 10], 10);
}

/// Alone the sell would meet 3000 and misses its limit of 3500. With its child, a buy of the
/// same quantity, the price stays at 4000, and both gain.
#[test]
fn a_parent_that_loses_alone_and_gains_with_its_child() {
    let orders = day("linked-both");
    let day = published(&orders);
    assert_eq!((day.prices[0], day.traded[0], day.welfare), (4_000, 150, 500_000));
    // The rows of the steps, the blocks and the link.
    assert_eq!(day.rows, [100, 100, 100, 100, 50, 50, 0]);
    // 50 x (8000 - 7000) and 50 x (9000 - 8000).
    assert_eq!(families_text(&orders), "block;gain\n1;100000\n");
    let book = read(&orders.book()).unwrap();
    assert!(outcome(&book, 0b01).is_none() && outcome(&book, 0b10).is_none());
    let alone = price_hour(&orders.book(), 0b01, 1);
    assert_eq!(alone, HourAnswer::Cleared { low: 3_000, high: 3_000, price: 3_000 });
}

/// The same with the child's limit missed by a cent: without it the parent loses again.
#[test]
fn neither_where_the_child_misses_its_limit() {
    let orders = day("linked-neither");
    assert_eq!(published(&orders).rows, [100, 100, 100, 100, 0, 0, 0]);
    assert_eq!(published(&orders).welfare, 400_000);
    assert_eq!(families_text(&orders), "block;gain\n1;0\n");
    let mut at_4000 = orders;
    at_4000.blocks[1].price = 4_000;
    assert_eq!(published_set(&at_4000), 0b11);
    assert_eq!(families_text(&at_4000), "block;gain\n1;50000\n");
}

/// The child would be taken alone, as in S5, but its parent is left out.
#[test]
fn a_child_is_left_out_with_its_parent() {
    let orders = day("linked-left-out");
    assert_eq!((published_set(&orders), published(&orders).welfare), (0, 400_000));
    assert_eq!(published(&orders).prices[..2], [4_000, 4_000]);
    assert_eq!(families_text(&orders), "block;gain\n1;0\n");
    let alone = unlinked(&orders);
    assert_eq!((published_set(&alone), published(&alone).welfare), (0b10, 410_000));
    assert_eq!(families_text(&alone), "block;gain\n1;0\n2;10000\n");
}

/// With and without the family the welfare is the same, so that it is taken: of equal sets
/// the one that holds the lowest block in which they differ.
#[test]
fn equal_welfare_with_and_without_a_family() {
    let orders = day("linked-tie");
    let book = read(&orders.book()).unwrap();
    let welfare = |set| outcome(&book, set).map(|outcome| outcome.welfare);
    assert_eq!(
        [0b00, 0b01, 0b10, 0b11].map(welfare),
        [Some(400_000), Some(400_000), None, Some(400_000)]
    );
    assert_eq!((published_set(&orders), published(&orders).welfare), (0b11, 400_000));
    assert_eq!(families_text(&orders), "block;gain\n1;0\n");
    // The child of a block that misses its limit does not decide a tie.
    let mut missed = orders;
    missed.blocks[0].price = 3_001;
    assert_eq!(published_set(&missed), 0);
}

/// Hour 3 counts twice: the gains are 100 x 300, 50 x 600, 30 x 150 and 20 x 1500.
#[test]
fn generations_on_a_day_of_25_hours() {
    let orders = day("linked-generations");
    assert_eq!(published_set(&orders), 0b010_0111);
    assert_eq!(published(&orders).welfare, 6_000_000 + 64_500 + 30_000);
    assert_eq!(families_text(&orders), "block;gain\n1;64500\n6;30000\n");
    // On a day of 24 hours each has two hours for three.
    let shorter = orders.clone().on_day_of(24);
    assert_eq!(families_text(&shorter), "block;gain\n1;43000\n6;20000\n");
    let every = families_text(&unlinked(&orders));
    assert_eq!(every, "block;gain\n1;30000\n2;30000\n3;4500\n4;0\n5;180000\n6;30000\n7;60000\n");
    // Hour 3 of a day of 23 hours counts in no gain.
    let mut spring = orders.on_day_of(23);
    spring.steps.iter_mut().filter(|step| step.hour == 3).for_each(|step| step.hour = 4);
    spring.blocks.iter_mut().for_each(|block| block.hours |= 0b1000);
    assert_eq!(families_text(&spring), "block;gain\n1;43000\n6;20000\n");
}

/// The outcome of the chain of 32 is known by reasons, see `linked_days`.
#[test]
fn a_chain_of_32() {
    let orders = day("linked-chain");
    let book = read(&orders.book()).unwrap();
    assert_eq!(book.links.len(), 31);
    assert!(book.blocks.iter().all(|block| root_of(&book, block.number) == 1));
    for taken in [0, 1, CHAIN_OF_32_TAKEN] {
        let outcome = outcome(&book, (1 << taken) - 1).expect("a set that is allowed");
        let report = families_of(&book, &result_bytes(&book, &outcome));
        let expected = format!("block;gain\n1;{}\n", u64::from(taken) * 30 * 2_000);
        assert_eq!(String::from_utf8(report).unwrap(), expected);
    }
    for set in [0b10, 0b101, u32::MAX, u32::MAX - 1, 1 << 31] {
        assert!(outcome(&book, set).is_none(), "{set:b}");
    }
    // Blocks 1 to 20, of which the last misses its limit.
    assert!(holds_parents(&book, (1 << 20) - 1) && outcome(&book, (1 << 20) - 1).is_none());
}

/// In editions without links each block is its own family.
#[test]
fn families_without_links() {
    let report = |name: &str| {
        let found = worked_days().into_iter().find(|(other, _)| *other == name);
        families_text(&found.expect(name).1)
    };
    assert_eq!(report("S1"), "block;gain\n");
    assert_eq!(report("S2"), "block;gain\n1;0\n");
    assert_eq!(report("S3"), "block;gain\n1;0\n");
    assert_eq!(report("S5"), "block;gain\n1;10000\n");
    assert_eq!(report("S6"), "block;gain\n1;10000\n2;0\n");
    for edition in [1, 2, 3, 4] {
        assert_eq!(families(&Orders::new().of_edition(edition).book()), b"block;gain\n");
    }
    assert_eq!(families(b""), b"refused;1\n");
}

/// A buy gains by what the prices are below its limit.
#[test]
fn the_gain_of_a_buy() {
    let orders = Orders::new()
        .step(Sell, 1, 3_000, 100, 2)
        .step(Sell, 2, 4_000, 100, 2)
        .step(Buy, 1, 5_000, 10, 1)
        .step(Buy, 2, 5_000, 10, 1)
        .block(Buy, &[1, 2], 3_600, 40, 3);
    assert_eq!(published(&orders).prices[..2], [3_000, 4_000]);
    assert_eq!(families_text(&orders), "block;gain\n1;8000\n");
}

/// Whether all blocks above a block are in a set, found upwards by positions.
fn has_ancestors(book: &Book, set: u32, block: &Block) -> bool {
    let link = book.links.iter().find(|link| link.child == block.number);
    link.is_none_or(|link| {
        let parent = book.blocks.iter().position(|other| other.number == link.parent).unwrap();
        (set >> parent) & 1 == 1 && has_ancestors(book, set, &book.blocks[parent])
    })
}

/// The gain of a block and all below it, found downwards.
fn gain_below(book: &Book, published: &Published, number: u32) -> u64 {
    let block = book.blocks.iter().find(|block| block.number == number).unwrap();
    let below = book.links.iter().filter(|link| link.parent == number);
    own_gain(book, published, block)
        + below.map(|link| gain_below(book, published, link.child)).sum::<u64>()
}

/// Hour by hour, what a taken block is paid over its limit.
fn own_gain(book: &Book, published: &Published, block: &Block) -> u64 {
    let sign = if block.side == Sell { 1 } else { -1 };
    let executed = i64::from(published.row(block.record));
    let hours = book.hours.iter().filter(|&&hour| block.has_hour(hour));
    let over =
        hours.map(|&hour| i64::from(published.prices[hour as usize - 1]) - i64::from(block.price));
    u64::try_from(sign * executed * over.sum::<i64>()).expect("no taken block loses")
}

/// What is met among random books.
#[derive(Debug, Default)]
struct Variety {
    linked: u32,
    three_generations: u32,
    child_taken: u32,
    family_taken_in_part: u32,
    left_out_with_its_parent: u32,
    other_set_without_links: u32,
    alike_across_a_link: u32,
    alike_below_one_parent: u32,
    tie_between_sets: u32,
}

impl Variety {
    fn look_at(&mut self, orders: &Orders) {
        let (book, published) = (read(&orders.book()).unwrap(), published(orders));
        let set = published.set(&book);
        let is_taken = |number: u32| {
            let position = book.blocks.iter().position(|block| block.number == number).unwrap();
            (set >> position) & 1 == 1
        };
        let prices: [u32; 24] = published.prices.clone().try_into().unwrap();
        let block = |number: u32| book.blocks.iter().find(|block| block.number == number).unwrap();
        let alike = |one: u32, other: u32| {
            let of = |block: &Block| (block.side, block.hours, block.price, block.quantity);
            of(block(one)) == of(block(other))
        };
        let links = || book.links.iter();
        let some = |found: bool| u32::from(found);
        self.linked += some(!book.links.is_empty());
        self.three_generations += some(links().any(|one| links().any(|it| it.parent == one.child)));
        self.child_taken += some(links().any(|link| is_taken(link.child)));
        self.family_taken_in_part +=
            some(links().any(|link| is_taken(link.parent) && !is_taken(link.child)));
        self.left_out_with_its_parent +=
            some(links().any(|link| {
                !is_taken(link.parent) && keeps_limit(&book, block(link.child), &prices)
            }));
        self.other_set_without_links += some(published_set(&unlinked(orders)) != set);
        self.alike_across_a_link += some(links().any(|link| alike(link.child, link.parent)));
        let same_parent = |one: u32, other: u32| one < other && alike(one, other);
        self.alike_below_one_parent += some(links().any(|one| {
            links().any(|it| it.parent == one.parent && same_parent(one.child, it.child))
        }));
        let welfare = i128::from(published.welfare);
        let ties = |other: u32| outcome(&book, other).is_some_and(|o| o.welfare == welfare);
        self.tie_between_sets +=
            some((0..1 << book.blocks.len()).any(|other| other != set && ties(other)));
    }
}

/// The random books of edition 3 are worth comparing on.
#[test]
fn linked_books_are_varied() {
    for day in DAYS {
        let mut met = Variety::default();
        (0..600).for_each(|seed| met.look_at(&small_orders_on(day, 3, &mut Dice::new(seed))));
        println!("{day} hours, of 600: {met:?}");
        assert!(met.linked >= 400 && met.three_generations >= 200);
        assert!(met.child_taken >= 50 && met.family_taken_in_part >= 50);
        assert!(met.left_out_with_its_parent >= 100 && met.other_set_without_links >= 50);
        assert!(met.alike_across_a_link >= 50 && met.alike_below_one_parent >= 30);
        assert!(met.tie_between_sets >= 50);
    }
}

/// "The published set is best among those that hold every taken child's parent", the sets
/// being told by another way; and pricing takes any set.
#[test]
fn the_best_of_the_sets_with_their_parents() {
    for seed in 0..count("BOOKS", 1_000) {
        let orders = small_orders_on(DAYS[seed as usize % 3], 3, &mut Dice::new(seed));
        let (linked, free) =
            (read(&orders.book()).unwrap(), read(&unlinked(&orders).book()).unwrap());
        let mut best = outcome(&free, 0).expect("the empty set is lawful");
        for set in 0..1 << linked.blocks.len() {
            let taken = (0..linked.blocks.len()).filter(|position| (set >> position) & 1 == 1);
            let complete =
                taken.map(|p| &linked.blocks[p]).all(|it| has_ancestors(&linked, set, it));
            assert_eq!(holds_parents(&linked, set), complete, "seed {seed}, set {set:b}");
            let without = outcome(&free, set);
            assert_eq!(outcome(&linked, set), without.clone().filter(|_| complete));
            let Some(other) = without.filter(|_| complete) else { continue };
            // Of equal sets the first by its lowest blocks.
            let key = |set: u32, welfare| (welfare, set.reverse_bits());
            if key(other.set, other.welfare) > key(best.set, best.welfare) {
                best = other;
            }
        }
        let published = published(&orders);
        assert_eq!(published.set(&linked), best.set, "seed {seed}");
        assert_eq!(i128::from(published.welfare), best.welfare, "seed {seed}");
    }
}

/// Where the links forbid nothing of what is best without them, they change nothing but
/// their own rows, which are 0.
#[test]
fn links_that_forbid_nothing() {
    let mut same = 0;
    for seed in 0..1_000 {
        let orders = small_orders_of(3, &mut Dice::new(seed));
        let (book, free) = (read(&orders.book()).unwrap(), unlinked(&orders));
        let (linked, without) = (published(&orders), published(&free));
        assert!(linked.welfare <= without.welfare, "seed {seed}");
        assert!(book.links.iter().all(|link| linked.row(link.record) == 0), "seed {seed}");
        if holds_parents(&book, published_set(&free)) {
            let rows = [&without.rows[..], &vec![0; orders.links.len()]].concat();
            assert_eq!(linked, Published { rows, ..without }, "seed {seed}");
            same += 1;
        }
        let some_set = 0x2d5 & ((1 << book.blocks.len()) - 1);
        for hour in 0..=25 {
            let answers = [&orders, &free].map(|it| price_hour(&it.book(), some_set, hour));
            assert_eq!(answers[0], answers[1], "seed {seed}, hour {hour}");
        }
    }
    println!("{same} of 1000 alike");
    assert!((300..=950).contains(&same));
}

/// The report against one that goes from a block to its children; "the families' gains
/// together are the gains of all taken blocks", and nothing of a family is taken without
/// the block above all.
#[test]
fn reports_of_random_books() {
    for seed in 0..count("BOOKS", 1_000) {
        let book = small_book_on(DAYS[seed as usize % 3], 1 + (seed / 3 % 3) as u32, seed);
        let accepted = read(&book).unwrap();
        let result = clear(&book, result_length(accepted.record_count)).unwrap();
        let published = Published::from_bytes(&result);
        let text = String::from_utf8(families(&book)).unwrap();
        assert!(text.is_ascii() && text.ends_with('\n'), "seed {seed}");
        let lines: Vec<&str> = text.lines().collect();
        assert_eq!(lines[0], "block;gain");
        let roots = accepted.blocks.iter().map(|block| block.number);
        let roots: Vec<u32> = roots
            .filter(|number| accepted.links.iter().all(|link| link.child != *number))
            .collect();
        let expected: Vec<String> = roots
            .iter()
            .map(|&root| format!("{root};{}", gain_below(&accepted, &published, root)))
            .collect();
        assert_eq!(lines[1..], expected, "seed {seed}");
        assert!(roots.windows(2).all(|two| two[0] < two[1]), "seed {seed}");
        let gains = lines[1..].iter().map(|line| line.split_once(';').unwrap().1);
        let in_all: u64 = gains.map(|gain| gain.parse::<u64>().unwrap()).sum();
        let blocks = accepted.blocks.iter().map(|it| own_gain(&accepted, &published, it));
        assert_eq!(in_all, blocks.sum::<u64>(), "seed {seed}");
    }
}

/// The large families with links have the blocks of those without, in families as large as
/// they say.
#[test]
fn large_families() {
    let family = |name: &str| FAMILIES.iter().find(|family| family.name == name).expect(name);
    for seed in 0..20 {
        let book = |name: &str| read(&(family(name).book)(seed, 32)).expect("accepted");
        let free = book("the same, not linked");
        assert_eq!((free.edition, free.steps.len(), free.blocks.len()), (2, 1_984, 32));
        for (name, size) in [("linked by 2", 2), ("linked by 4", 4), ("linked by 8", 8)] {
            let linked = book(name);
            assert_eq!((&linked.steps, &linked.blocks), (&free.steps, &free.blocks), "{name}");
            let roots = |block: &Block| root_of(&linked, block.number);
            let of_root = |root| linked.blocks.iter().filter(|it| roots(it) == root).count();
            let sizes = (1..=32).filter(|&number| root_of(&linked, number) == number).map(of_root);
            assert_eq!(sizes.collect::<Vec<usize>>(), vec![size; 32 / size], "{name}");
        }
    }
}

/// The shapes are what they say.
#[test]
fn shapes() {
    let mut dice = Dice::new(1);
    let blocks = (0..8).fold(Orders::new(), |orders, _| orders.block(Buy, &[1, 2], 5, 5, 5));
    let mut parents = |shape| {
        let orders = blocks.clone().linked(shape, &mut dice);
        assert_eq!(refusal(&orders.book()), 0);
        orders.links.iter().map(|link| (link.child, link.parent)).collect::<Vec<_>>()
    };
    assert_eq!(parents(Shape::Chain), [(2, 1), (3, 2), (4, 3), (5, 4), (6, 5), (7, 6), (8, 7)]);
    assert_eq!(parents(Shape::Star), [(2, 1), (3, 1), (4, 1), (5, 1), (6, 1), (7, 1), (8, 1)]);
    assert_eq!(parents(Shape::Tree), [(2, 1), (3, 1), (4, 2), (5, 2), (6, 3), (7, 3), (8, 4)]);
    assert_eq!(parents(Shape::Families(2)), [(2, 1), (4, 3), (6, 5), (8, 7)]);
    let fours = parents(Shape::Families(4));
    assert_eq!(fours.len(), 6);
    assert!(fours.iter().all(|(child, parent)| (child - 1) / 4 == (parent - 1) / 4));
}
