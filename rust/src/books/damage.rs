//! Refused books: with chosen causes, with any byte changed, of any length, of any
//! edition. As in `random`, a name that ends with `of` makes books of an edition.

use super::builder::{hour_bits, put, BlockOrder, Orders, StepOrder};
use super::dice::Dice;
use super::links::{link_blocks, Shape, LINKED_EDITION};
use super::random::small_orders_of;
use super::step_limit::crowd_an_hour;
use crate::paper::{limits, passing_hours, Limits, Side, CHANGED_HOUR};

/// A book for a reader, settled by its seed: accepted ones, each cause alone,
/// several causes at once, random changes and plain noise.
pub fn reader_book(seed: u64) -> Vec<u8> {
    reader_book_of(1, seed)
}

/// A book for a reader of an edition. From edition 2 on there are also books whose head
/// names another edition than the one that their orders were made for.
pub fn reader_book_of(edition: u32, seed: u64) -> Vec<u8> {
    let mut dice = Dice::new(seed ^ 0x7265_6164_0000_0000);
    if edition != 1 && dice.once_in(5) {
        return another_edition(edition, &mut dice);
    }
    if dice.once_in(2_000) {
        return large_book(edition, &mut dice);
    }
    match dice.below(20) {
        0..=4 => small_orders_of(edition, &mut dice).shuffled_book(&mut dice),
        5..=9 => {
            let cause = some_cause(edition, &mut dice);
            book_with_causes_of(edition, &[cause], &mut dice)
        }
        10..=13 => {
            let causes = [some_cause(edition, &mut dice), some_cause(edition, &mut dice)];
            book_with_causes_of(edition, &causes, &mut dice)
        }
        14..=16 => {
            let orders = small_orders_of(edition, &mut dice);
            bytes_changed(&orders, &mut dice)
        }
        17 => length_changed(edition, &mut dice),
        18 => noise(&mut dice),
        _ => loose_records(edition, &mut dice),
    }
}

/// A cause of a book of an edition on a day of 24 hours.
fn some_cause(edition: u32, dice: &mut Dice) -> u8 {
    match edition {
        1 | 2 => dice.between(1, 6) as u8,
        3 => dice.pick(&[1, 2, 3, 3, 4, 5, 6, 10, 10]),
        _ => dice.pick(&[1, 2, 3, 3, 4, 5, 6, 10, 10, 11]),
    }
}

/// Every book that differs from this one in a single byte.
pub fn every_byte_changed(book: &[u8]) -> impl Iterator<Item = Vec<u8>> + '_ {
    let places = 0..book.len();
    places.flat_map(move |place| {
        let others = (0..=255u8).filter(move |&value| value != book[place]);
        others.map(move |value| {
            let mut changed = book.to_vec();
            changed[place] = value;
            changed
        })
    })
}

/// Books at the edges of the lengths and counts: all lengths 0 to 64, R of 0,
/// 2048 and 2049, 32,768 bytes and more, 32 and 33 blocks, 5 and 6 of one
/// portfolio.
pub fn edge_books() -> Vec<Vec<u8>> {
    let mut books = Vec::new();
    let four_records = worked_base().book();
    for length in 0..=64 {
        books.push(vec![0; length]);
        books.push(vec![255; length]);
        books.push(four_records[..length].to_vec());
        for record_count in 0..=5 {
            let mut book = four_records[..length].to_vec();
            if length >= 2 {
                book[1] = record_count;
            }
            books.push(book);
        }
    }
    for orders in [2_046, 2_047, 2_048] {
        let full = many_steps(orders).book();
        books.push(full.clone());
        books.push([&full[..], &[0]].concat());
        books.push([&full[..], &[0; 16]].concat());
        books.push(full[..full.len() - 1].to_vec());
    }
    for length in [32_767, 32_768, 32_769, 100_000, 16 * 65_535, 16 * 65_536] {
        let mut book = vec![0; length];
        // The head gives the count that would fit, cut to its two bytes.
        put(&mut book, 0, 0, 2, (length / 16) as u32);
        put(&mut book, 0, 6, 2, 24 * 256 + 1);
        books.push(book);
    }
    for count in [31, 32, 33, 34, 255] {
        books.push(many_blocks(1, count, 5).book());
    }
    for of_one_portfolio in [5, 6, 7] {
        books.push(many_blocks(1, of_one_portfolio, of_one_portfolio).book());
        books.push(many_blocks(1, 32, of_one_portfolio).book());
    }
    books
}

/// Editions that are there and editions that are not.
pub const SOME_EDITIONS: [u32; 7] = [0, 1, 2, 3, 4, 5, 255];

/// Books at the edges of the editions' limits, each under every edition of
/// [`SOME_EDITIONS`]: one block of a quantity beside so many of one portfolio, so that
/// two causes meet; 31 to 34 blocks in all; and what is wrong in the head besides.
pub fn edition_edges() -> Vec<Vec<u8>> {
    let mut books = Vec::new();
    for edition in SOME_EDITIONS {
        let mut push = |orders: Orders| books.push(orders.of_edition(edition).book());
        for of_one_portfolio in [1, 2, 4, 5, 6, 7, 9, 10, 11, 12] {
            for quantity in [0, 1, 49, 50, 51, 249, 250, 251, 256, 306, 65_535] {
                let mut orders = many_blocks(1, of_one_portfolio, of_one_portfolio);
                orders.blocks[of_one_portfolio as usize / 2].quantity = quantity;
                push(orders);
            }
            for count in [31, 32, 33, 34] {
                push(many_blocks(1, count, of_one_portfolio));
                push(many_blocks(2, count, of_one_portfolio));
            }
        }
        for (at, value) in [(6, 26), (8, 1), (15, 1)] {
            let mut book = many_blocks(1, 2, 2).of_edition(edition).book();
            book[at] = value;
            books.push(book);
        }
    }
    books
}

/// A random book with each of these causes, 1 to 6, so that the lowest of them
/// is its refusal; from edition 3 on also 10, in edition 4 also 11.
pub fn book_with_causes(causes: &[u8], dice: &mut Dice) -> Vec<u8> {
    book_with_causes_of(1, causes, dice)
}

/// The same with a book of an edition.
pub fn book_with_causes_of(edition: u32, causes: &[u8], dice: &mut Dice) -> Vec<u8> {
    with_causes(small_orders_of(edition, dice), causes, dice)
}

/// The book of some orders with each of these causes: 1 to 6, on a day of 23 hours 9, from
/// edition 3 on 10, in edition 4 11.
pub(super) fn with_causes(mut orders: Orders, causes: &[u8], dice: &mut Dice) -> Vec<u8> {
    let limits = limits(orders.edition).expect("an edition");
    ensure_orders(&mut orders, dice);
    let holds = |cause: u8| causes.contains(&cause);
    if holds(6) {
        crowd_blocks(&mut orders, limits, dice);
    }
    if holds(11) {
        crowd_an_hour(&mut orders, dice);
        number_from_one(&mut orders);
    }
    if holds(10) && orders.links.is_empty() {
        orders = orders.linked(Shape::Chain, dice);
    }
    let book = orders.shuffled_book(dice);
    let mut damaged = Damaged { limits, chained: (1..=orders.count()).collect(), book };
    // From the last cause back, so that no change undoes one that comes before its own.
    // What it does to the later ones does not matter.
    if holds(10) {
        damaged.break_a_link(orders.blocks.len() as u32, dice);
    }
    if holds(9) {
        damaged.leave_the_day(dice);
    }
    if holds(5) {
        damaged.leave_a_record_stray(dice);
    }
    if holds(4) {
        damaged.break_a_field(dice);
    }
    if holds(3) {
        damaged.break_a_chain(dice);
    }
    if holds(2) {
        damaged.break_the_head(dice);
    }
    if holds(1) {
        damaged.break_the_length(dice);
    }
    damaged.book
}

/// A book under damage, with the records that are still on a chain.
struct Damaged {
    limits: Limits,
    book: Vec<u8>,
    chained: Vec<usize>,
}

impl Damaged {
    fn record_count(&self) -> usize {
        self.book.len() / 16
    }

    fn get(&self, k: usize, at: usize, count: usize) -> usize {
        let bytes = &self.book[16 * k + at..16 * k + at + count];
        bytes.iter().fold(0, |high, &byte| high * 256 + usize::from(byte))
    }

    fn put(&mut self, k: usize, at: usize, count: usize, number: u32) {
        put(&mut self.book, k, at, count, number);
    }

    fn is_block(&self, k: usize) -> bool {
        self.get(k, 0, 1) == 2
    }

    fn is_link(&self, k: usize) -> bool {
        self.get(k, 0, 1) == 3
    }

    fn kind_of_chain(&self, k: usize) -> usize {
        self.get(k, 0, 1)
    }

    /// Where the index of record k is written: (record, byte).
    fn place_of_link_to(&self, k: usize) -> (usize, usize) {
        let heads = [(0, 2), (0, 4), (0, 8)];
        let nexts = self.chained.iter().map(|&before| (before, 2));
        let mut links = heads.into_iter().chain(nexts);
        links.find(|&(record, at)| self.get(record, at, 2) == k).expect("k is on a chain")
    }

    /// Cause 10, where the blocks are numbered 1 to their count: a parent that is not there
    /// or not below its child, or a child that is not there, which only the last can be.
    fn break_a_link(&mut self, blocks: u32, dice: &mut Dice) {
        let links: Vec<usize> = self.chained.iter().copied().filter(|&k| self.is_link(k)).collect();
        let last = links.iter().copied().max_by_key(|&k| self.get(k, 4, 2)).expect("a link");
        if dice.once_in(4) {
            let child = dice.pick(&[blocks + 1, blocks + 2, 256 + blocks, 65_535]);
            self.put(last, 4, 2, child);
            return;
        }
        let k = dice.pick(&links);
        let child = self.get(k, 4, 2) as u32;
        let above = dice.between(child, blocks);
        self.put(k, 6, 2, dice.pick(&[0, child, above, blocks + 1, 65_535]));
    }

    /// Cause 9 on a day of 23 hours: a step for hour 3, or a block with one hour besides it.
    fn leave_the_day(&mut self, dice: &mut Dice) {
        let orders = self.chained.iter().copied().filter(|&k| !self.is_link(k));
        let k = dice.pick(&orders.collect::<Vec<usize>>());
        if self.is_block(k) {
            let other = dice.pick(&[1, 2, 2, 4, 4, 5, 23, 24]);
            self.put(k, 8, 3, hour_bits(&[CHANGED_HOUR, other]));
        } else {
            self.put(k, 6, 1, CHANGED_HOUR);
        }
    }

    /// Cause 5: a record more, or one that its chain passes by.
    fn leave_a_record_stray(&mut self, dice: &mut Dice) {
        let victim = dice.pick(&self.chained);
        let (record, at) = self.place_of_link_to(victim);
        if dice.once_in(2) {
            let next = self.get(victim, 2, 2);
            self.put(record, at, 2, next as u32);
            self.chained.retain(|&k| k != victim);
            return;
        }
        let stray: Vec<u8> = match dice.below(4) {
            0 => vec![0; 16],
            1 => vec![255; 16],
            2 => (0..16).map(|_| dice.bits() as u8).collect(),
            _ => self.book[16 * victim..16 * victim + 16].to_vec(),
        };
        self.book.extend(stray);
        self.put(0, 0, 2, self.record_count() as u32);
    }

    /// Cause 4: a field of an order outside its range.
    fn break_a_field(&mut self, dice: &mut Dice) {
        let k = dice.pick(&self.chained);
        if self.is_link(k) {
            let at = dice.pick(&[1, 1, 8, 9, 10, 11, 12, 13, 14, 15]);
            return self.put(k, at, 1, dice.pick(&[1, 2, 128, 255]));
        }
        let side = (1, 1, dice.between(2, 255));
        let portfolio = (7, 1, 0);
        let one_hour = hour_bits(&[dice.between(1, 24)]);
        let of_step = [
            side,
            portfolio,
            (6, 1, 0),
            (6, 1, 25),
            (6, 1, 255),
            (8, 4, 0),
            (8, 4, 300_001),
            (8, 4, u32::MAX),
            (12, 4, 0),
            (12, 4, 100_000),
            (12, 4, u32::MAX),
        ];
        let of_block = [
            side,
            portfolio,
            (6, 1, dice.between(1, 255)),
            (8, 3, 0),
            (8, 3, one_hour),
            (11, 3, 0),
            (11, 3, 300_001),
            (11, 3, 0xff_ffff),
            (14, 2, 0),
            (14, 2, self.limits.block_quantity + 1),
            (14, 2, 65_535),
        ];
        let choices = if self.is_block(k) { of_block } else { of_step };
        let (at, count, number) = dice.pick(&choices);
        self.put(k, at, count, number);
    }

    /// Cause 3: an index that is not there, a wrong kind, or a number that does
    /// not rise, which is also what a cycle comes to.
    fn break_a_chain(&mut self, dice: &mut Dice) {
        let k = dice.pick(&self.chained);
        let (record, at) = self.place_of_link_to(k);
        let records = self.record_count() as u32;
        match dice.below(8) {
            0 => {
                let index = dice.pick(&[records, records + 1, 2_048, 32_768, 65_535]);
                self.put(record, at, 2, index.max(records));
            }
            1 => {
                let others = match self.kind_of_chain(k) as u32 {
                    3 => [0, 1, 255, 2],
                    kind => [0, 3, 255, 3 - kind],
                };
                self.put(k, 0, 1, dice.pick(&others));
            }
            2 => self.put(k, 4, 2, 0),
            3 => self.repeat_a_number(k, record, dice),
            // Its own next.
            4 => self.put(k, 2, 2, k as u32),
            5 => self.close_a_cycle(k, dice),
            6 => self.enter_the_other_chain(k, dice),
            // One chain's head field leads into the other chain, so that all of
            // its records are shared.
            _ => {
                let other = if self.is_block(k) { 2 } else { 4 };
                self.put(0, other, 2, k as u32);
            }
        }
    }

    /// Gives record k the number of the record before it, or a lower one.
    fn repeat_a_number(&mut self, k: usize, before: usize, dice: &mut Dice) {
        let number = if before == 0 { 0 } else { self.get(before, 4, 2) as u32 };
        let lower = if dice.once_in(2) { number } else { dice.between(0, number) };
        self.put(k, 4, 2, lower);
    }

    /// Leads record k back to a record of its chain that does not come later.
    fn close_a_cycle(&mut self, k: usize, dice: &mut Dice) {
        let kind = self.kind_of_chain(k);
        let number = self.get(k, 4, 2);
        let of_chain =
            self.chained.iter().copied().filter(|&other| self.kind_of_chain(other) == kind);
        let earlier: Vec<usize> =
            of_chain.filter(|&other| self.get(other, 4, 2) <= number).collect();
        let target = dice.pick(&earlier);
        self.put(k, 2, 2, target as u32);
    }

    /// Leads record k to a record of the other chain.
    fn enter_the_other_chain(&mut self, k: usize, dice: &mut Dice) {
        let kind = self.kind_of_chain(k);
        let others =
            self.chained.iter().copied().filter(|&other| self.kind_of_chain(other) != kind);
        let others: Vec<usize> = others.collect();
        // With the other chain empty, the record itself serves.
        let target = if others.is_empty() { k } else { dice.pick(&others) };
        self.put(k, 2, 2, target as u32);
    }

    /// Cause 2.
    fn break_the_head(&mut self, dice: &mut Dice) {
        let hours = |value: u32| if passing_hours(value).is_some() { 26 } else { value };
        let edition = |value: u32| if limits(value).is_some() { 5 } else { value };
        // From edition 3 on bytes 8 and 9 lead to the links.
        let linked = self.get(0, 7, 1) as u32 >= LINKED_EDITION;
        let zeros = if linked { 10..16 } else { 8..16 };
        match dice.below(3) {
            0 => self.put(0, 6, 1, hours(dice.between(0, 254))),
            1 => self.put(0, 7, 1, edition(dice.between(0, 254))),
            _ => self.put(0, zeros.start + dice.below(zeros.len()), 1, dice.between(1, 255)),
        }
    }

    /// Cause 1.
    fn break_the_length(&mut self, dice: &mut Dice) {
        let records = self.record_count() as u32;
        match dice.below(5) {
            0 => self.book.truncate(dice.below(self.book.len())),
            1 => self.book.truncate(dice.below(16)),
            2 => self.book.extend(vec![0; 1 + dice.below(40)]),
            3 => self.put(0, 0, 2, dice.pick(&[0, records - 1, records + 1, 65_535])),
            _ => self.put(0, 0, 2, records + 256),
        }
    }
}

/// At least two steps and two blocks, so that every cause can be made; numbered from 1 on
/// and, from edition 3 on, linked anew.
pub(super) fn ensure_orders(orders: &mut Orders, dice: &mut Dice) {
    while orders.steps.len() < 2 {
        let number = orders.steps.last().map_or(1, |step| step.number);
        orders.steps.insert(
            0,
            StepOrder {
                number,
                side: Side::Buy,
                hour: 1,
                price: 5_000,
                quantity: 100,
                portfolio: 1,
            },
        );
    }
    while orders.blocks.len() < 2 {
        let hours = hour_bits(&[1, 2]);
        orders.blocks.insert(
            0,
            BlockOrder {
                number: 1,
                side: Side::Sell,
                hours,
                price: 2_900,
                quantity: 50,
                portfolio: 3,
            },
        );
    }
    number_from_one(orders);
    link_blocks(orders, dice);
}

fn number_from_one(orders: &mut Orders) {
    for (index, step) in orders.steps.iter_mut().enumerate() {
        step.number = index as u32 + 1;
    }
    for (index, block) in orders.blocks.iter_mut().enumerate() {
        block.number = index as u32 + 1;
    }
}

/// Cause 6: more than 32 blocks, or one more of one portfolio than its edition allows.
fn crowd_blocks(orders: &mut Orders, limits: Limits, dice: &mut Dice) {
    let model = dice.pick(&orders.blocks);
    if dice.once_in(2) {
        let count = dice.pick(&[33, 34, 40]);
        while orders.blocks.len() < count {
            let portfolio = 100 + orders.blocks.len() as u32;
            orders.blocks.push(BlockOrder { portfolio, ..model });
        }
    } else {
        let portfolio = dice.between(1, 255);
        for _ in 0..=limits.blocks_of_a_portfolio {
            let place = dice.below(orders.blocks.len() + 1);
            let side = dice.pick(&[Side::Buy, Side::Sell]);
            orders.blocks.insert(place, BlockOrder { portfolio, side, ..model });
        }
    }
    number_from_one(orders);
    link_blocks(orders, dice);
}

/// Orders at the limits of the editions up to one, under any edition.
fn another_edition(last: u32, dice: &mut Dice) -> Vec<u8> {
    let edition = dice.between(1, last);
    let mut orders = small_orders_of(edition, dice);
    ensure_orders(&mut orders, dice);
    if dice.once_in(2) {
        let k = dice.below(orders.blocks.len());
        orders.blocks[k].quantity = dice.pick(&[50, 51, 52, 249, 250, 251, 252]);
    }
    if dice.once_in(2) {
        let model = dice.pick(&orders.blocks);
        let count = dice.pick(&[5, 6, 10, 11]);
        orders.blocks.truncate(count);
        orders.blocks.resize(count, model);
        orders.blocks.iter_mut().for_each(|block| block.portfolio = model.portfolio);
        number_from_one(&mut orders);
        link_blocks(&mut orders, dice);
    }
    let editions = match last {
        2 => [0, 1, 1, 1, 2, 2, 2, 3, 4, 255],
        3 => [0, 1, 1, 2, 2, 3, 3, 3, 4, 255],
        _ => [0, 1, 2, 3, 3, 4, 4, 4, 5, 255],
    };
    orders.of_edition(dice.pick(&editions)).shuffled_book(dice)
}

/// The book of some orders with one to three bytes changed, a little or altogether.
pub(super) fn bytes_changed(orders: &Orders, dice: &mut Dice) -> Vec<u8> {
    let mut book = orders.shuffled_book(dice);
    for _ in 0..dice.between(1, 3) {
        let place = dice.below(book.len());
        book[place] = match dice.below(4) {
            0 => book[place].wrapping_add(1),
            1 => book[place].wrapping_sub(1),
            2 => book[place] ^ 1 << dice.below(8),
            _ => dice.bits() as u8,
        };
    }
    book
}

/// A small book cut or lengthened; now and then R follows.
fn length_changed(edition: u32, dice: &mut Dice) -> Vec<u8> {
    let mut book = small_orders_of(edition, dice).shuffled_book(dice);
    let length = dice.below(book.len() + 48);
    book.resize(length, dice.bits() as u8);
    if dice.once_in(2) && length >= 16 {
        book.truncate(length / 16 * 16);
        put(&mut book, 0, 0, 2, (length / 16) as u32);
    }
    book
}

/// Bytes without sense, of any length from 0 to 64.
fn noise(dice: &mut Dice) -> Vec<u8> {
    let most = dice.pick(&[0, 1, 2, 255]);
    let length = dice.below(65);
    (0..length).map(|_| dice.between(0, most) as u8).collect()
}

/// A right head over records whose indices, kinds and numbers are drawn at random
/// from a few values: cycles, shared records and strays of every shape.
fn loose_records(edition: u32, dice: &mut Dice) -> Vec<u8> {
    let mut orders = many_steps(dice.between(1, 3)).of_edition(edition);
    orders.blocks = many_blocks(edition, dice.between(1, 3), 5).blocks;
    link_blocks(&mut orders, dice);
    let records = orders.count() as u32 + 1;
    let mut book = orders.shuffled_book(dice);
    let wrong_kinds = dice.once_in(2);
    for k in 0..records as usize {
        if dice.once_in(2) {
            put(&mut book, k, 2, 2, dice.between(0, records));
        }
        if dice.once_in(4) {
            put(&mut book, k, 4, 2, dice.between(0, records));
        }
        if wrong_kinds && k > 0 && dice.once_in(4) {
            put(&mut book, k, 0, 1, dice.between(1, edition.clamp(2, LINKED_EDITION)));
        }
    }
    if edition >= LINKED_EDITION && dice.once_in(2) {
        put(&mut book, 0, 8, 2, dice.between(0, records));
    }
    book
}

/// A full book with at most one thing wrong.
fn large_book(edition: u32, dice: &mut Dice) -> Vec<u8> {
    let of_one_portfolio = limits(edition).expect("an edition").blocks_of_a_portfolio;
    let mut orders = many_steps(dice.between(2_014, 2_016)).of_edition(edition);
    orders.blocks = many_blocks(edition, 32, of_one_portfolio as u32).blocks;
    link_blocks(&mut orders, dice);
    // The links take the place of steps.
    orders.steps.truncate(orders.steps.len() - orders.links.len());
    let mut book = orders.shuffled_book(dice);
    if dice.once_in(2) {
        let place = dice.below(book.len());
        book[place] = dice.bits() as u8;
    }
    book
}

fn worked_base() -> Orders {
    Orders::new().step(Side::Buy, 1, 5_000, 100, 1).step(Side::Sell, 1, 3_000, 100, 2).block(
        Side::Sell,
        &[1, 2],
        2_900,
        50,
        3,
    )
}

fn many_steps(count: u32) -> Orders {
    let step = |orders: Orders, index: u32| {
        let side = [Side::Buy, Side::Sell][index as usize % 2];
        orders.step(side, 1 + index % 24, 1 + index, 1 + index, 1 + index % 255)
    };
    (0..count).fold(Orders::new(), step)
}

/// Blocks of an edition, with small quantities in edition 1 and large ones in edition 2.
fn many_blocks(edition: u32, count: u32, of_one_portfolio: u32) -> Orders {
    let block = |orders: Orders, index: u32| {
        let side = [Side::Sell, Side::Buy][index as usize % 2];
        let quantity = if edition == 1 { 1 + index % 50 } else { 250 - index % 200 };
        let portfolio = 1 + index / of_one_portfolio;
        orders.block(side, &[1, 2 + index % 23], 1 + index, quantity, portfolio)
    };
    (0..count).fold(Orders::new().of_edition(edition), block)
}
