//! Links among the blocks of books from edition 3 on: shapes for the random books, and books
//! at the edges of what a link may be.

use super::builder::{hour_bits, put, BlockOrder, LinkOrder, Orders};
use super::days::DAYS;
use super::dice::Dice;
use crate::paper::{Side, CHANGED_HOUR};

/// How the blocks of a book hang together.
#[derive(Clone, Copy, Debug, PartialEq, Eq)]
pub enum Shape {
    /// Each block needs the one before it.
    Chain,
    /// All blocks need the first.
    Star,
    /// Each block has up to two children.
    Tree,
    /// So many blocks hang together, each below any one of its family before it.
    Families(usize),
    /// Each block but some needs any one before it.
    Any,
}

impl Shape {
    /// The position of the parent of the block at a position, where it has one.
    fn parent(self, position: usize, dice: &mut Dice) -> Option<usize> {
        let before = position.checked_sub(1)?;
        match self {
            Shape::Chain => Some(before),
            Shape::Star => Some(0),
            Shape::Tree => Some(before / 2),
            Shape::Families(size) => {
                let place = position % size;
                (place > 0).then(|| position - place + dice.below(place))
            }
            Shape::Any => (!dice.once_in(3)).then(|| dice.below(position)),
        }
    }
}

/// The first edition with links.
pub(super) const LINKED_EDITION: u32 = 3;

impl Orders {
    /// The same orders with their blocks linked in a shape, in edition 3 or a later one.
    pub fn linked(mut self, shape: Shape, dice: &mut Dice) -> Orders {
        let numbers: Vec<u32> = self.blocks.iter().map(|block| block.number).collect();
        let parents = (0..numbers.len()).map(|position| (position, shape.parent(position, dice)));
        let links = parents.filter_map(|(position, parent)| {
            parent.map(|parent| LinkOrder { child: numbers[position], parent: numbers[parent] })
        });
        self.links = links.collect();
        self.edition = self.edition.max(LINKED_EDITION);
        self
    }
}

/// Links the blocks of a book from edition 3 on in some shape; now and then not at all. Many
/// books get blocks that are alike, or children at better prices than their parents. No
/// dice are thrown for the editions without links.
pub(super) fn link_blocks(orders: &mut Orders, dice: &mut Dice) {
    if orders.edition < LINKED_EDITION {
        return;
    }
    orders.links.clear();
    let shape = match dice.below(9) {
        0 => return,
        1 => Shape::Chain,
        2 => Shape::Star,
        3 => Shape::Tree,
        4 => Shape::Families(2),
        5 => Shape::Families(3),
        6 => Shape::Families(4),
        _ => Shape::Any,
    };
    *orders = std::mem::take(orders).linked(shape, dice);
    if dice.once_in(3) {
        make_blocks_alike(orders, dice);
    }
    if dice.once_in(2) {
        worsen_parents(orders);
    }
}

/// Makes half of the blocks like one before them.
fn make_blocks_alike(orders: &mut Orders, dice: &mut Dice) {
    for position in 1..orders.blocks.len() {
        if dice.once_in(2) {
            let model = orders.blocks[dice.below(position)];
            let BlockOrder { number, portfolio, .. } = orders.blocks[position];
            orders.blocks[position] = BlockOrder { number, portfolio, ..model };
        }
    }
}

/// Gives each child the better price of it and its parent, where they are of one side.
fn worsen_parents(orders: &mut Orders) {
    for LinkOrder { child, parent } in orders.links.clone() {
        let place = |number| orders.blocks.iter().position(|block| block.number == number);
        let (Some(child), Some(parent)) = (place(child), place(parent)) else { continue };
        let [one, other] = [orders.blocks[child], orders.blocks[parent]];
        let is_worse = match one.side {
            Side::Sell => one.price > other.price,
            Side::Buy => one.price < other.price,
        };
        if one.side == other.side && is_worse {
            orders.blocks[child].price = other.price;
            orders.blocks[parent].price = one.price;
        }
    }
}

/// What is left of a set of positions when the blocks without their parents are dropped.
pub(super) fn with_parents_only(orders: &Orders, set: u32) -> u32 {
    let bit = |number: u32| {
        let position = orders.blocks.iter().position(|block| block.number == number);
        position.map_or(0, |position| 1 << position)
    };
    // A parent is settled before its children: their numbers rise along the links.
    orders.links.iter().fold(set, |set, link| match set & bit(link.parent) {
        0 => set & !bit(link.child),
        _ => set,
    })
}

/// Four blocks with gaps between their numbers, the last two below the first two.
fn base() -> Orders {
    let mut orders = Orders::new().of_edition(3).step(Side::Buy, 1, 5_000, 200, 1);
    for (number, price) in [(2, 2_900), (4, 2_800), (6, 2_700), (9, 2_600)] {
        orders = orders.block(Side::Sell, &[1, 2, 4], price, 50, 3);
        orders.blocks.last_mut().expect("a block").number = number;
    }
    orders.link(4, 2).link(6, 4).link(9, 2)
}

/// Numbers of blocks in [`base`], beside and between them.
const SOME_NUMBERS: [u32; 13] = [0, 1, 2, 3, 4, 5, 6, 7, 8, 9, 10, 256 + 4, 65_535];

/// Books at the edges of the links: any child and parent at each place of the chain; each
/// byte of a link, of any record's next and of the head; links in the other editions;
/// links beside each other cause; and as many as there may be.
pub fn link_edges() -> Vec<Vec<u8>> {
    let mut books = Vec::new();
    for day in DAYS {
        for place in 0..3 {
            for (child, parent) in pairs(&SOME_NUMBERS) {
                let mut orders = base().on_day_of(day);
                orders.links[place] = LinkOrder { child, parent };
                books.push(orders.book());
            }
        }
    }
    for edition in 0..=5 {
        books.extend(byte_edges(&base().of_edition(edition)));
    }
    books.extend(next_edges());
    books.extend(DAYS.iter().flat_map(|&day| two_causes(day)));
    books.extend(size_edges());
    books
}

fn pairs(numbers: &[u32]) -> impl Iterator<Item = (u32, u32)> + '_ {
    numbers.iter().flat_map(move |&one| numbers.iter().map(move |&other| (one, other)))
}

/// Every byte of the head behind its edition, and of each link, at some values; for one
/// book with links and one without.
fn byte_edges(orders: &Orders) -> Vec<Vec<u8>> {
    let mut books = Vec::new();
    let unlinked = Orders { links: Vec::new(), ..orders.clone() };
    for orders in [orders, &unlinked] {
        let head = 8..16;
        let links = (0..orders.links.len()).flat_map(|place| {
            let record = 1 + orders.steps.len() + orders.blocks.len() + place;
            16 * record..16 * record + 16
        });
        for at in head.chain(links) {
            for value in [0, 1, 2, 3, 4, 6, 128, 255] {
                let mut book = orders.book();
                book[at] = value;
                books.push(book);
            }
        }
    }
    books
}

/// Any index in each field that leads to a record, and one more record that none leads to.
fn next_edges() -> Vec<Vec<u8>> {
    let mut books = Vec::new();
    let book = base().book();
    let records = (book.len() / 16) as u32;
    let heads = [(0, 2), (0, 4), (0, 8)];
    let nexts = (1..records as usize).map(|k| (k, 2));
    for (record, at) in heads.into_iter().chain(nexts) {
        for index in (0..=records + 1).chain([2_047, 2_048, 32_768, 65_535]) {
            let mut changed = book.clone();
            put(&mut changed, record, at, 2, index);
            books.push(changed);
        }
    }
    for edition in 1..=5 {
        let unlinked = Orders { links: Vec::new(), ..base().of_edition(edition) };
        for orders in [base().of_edition(edition), unlinked] {
            // A link that could stand on the chain.
            let mut stray = [&orders.book()[..], &[3, 0, 0, 0, 0, 10, 0, 2], &[0; 8]].concat();
            let records = stray.len() / 16;
            put(&mut stray, 0, 0, 2, records as u32);
            books.push(stray);
        }
    }
    books
}

/// A link to a block that is not there beside each other cause, and beside none.
fn two_causes(day: u32) -> Vec<Vec<u8>> {
    let mut books = Vec::new();
    let mut push = |change: &dyn Fn(&mut Orders)| {
        for parent in [0, 3, 4, 6] {
            let mut orders = base().on_day_of(day);
            orders.links[0].parent = parent;
            change(&mut orders);
            books.push(orders.book());
        }
    };
    let block = |portfolio| BlockOrder {
        number: 10,
        side: Side::Buy,
        hours: hour_bits(&[1, 2]),
        price: 1,
        quantity: 1,
        portfolio,
    };
    push(&|_| ());
    push(&|orders| orders.blocks[0].quantity = 251);
    push(&|orders| orders.blocks[1].number = 2);
    push(&|orders| orders.steps[0].number = 0);
    push(&|orders| orders.links[1].child = 4);
    push(&|orders| orders.links[0].child = 0);
    // On a day of 23 hours.
    push(&|orders| orders.steps[0].hour = CHANGED_HOUR);
    push(&|orders| orders.blocks[3].hours = hour_bits(&[2, CHANGED_HOUR]));
    for count in [6, 7, 28, 29] {
        let own = |index: u32| if count < 10 { 3 } else { 4 + index };
        push(&|orders| {
            let more =
                (0..count).map(|index| BlockOrder { number: 10 + index, ..block(own(index)) });
            orders.blocks.extend(more);
        });
    }
    books
}

/// Chains and stars of 31 to 33 blocks, and books of as many records as there may be.
fn size_edges() -> Vec<Vec<u8>> {
    let mut dice = Dice::new(3);
    let mut books = Vec::new();
    for (count, shape) in [31, 32, 33]
        .into_iter()
        .flat_map(|count| [Shape::Chain, Shape::Star, Shape::Tree].map(move |shape| (count, shape)))
    {
        let blocks = (0..count).fold(Orders::new(), |orders, index| {
            orders.block(Side::Sell, &[1, 2], 100 + index, 5, 1 + index / 10)
        });
        let orders = blocks.linked(shape, &mut dice);
        for steps in [0, 2_047 - orders.count(), 2_048 - orders.count()] {
            let full = (0..steps).fold(orders.clone(), |orders, index| {
                orders.step(Side::Buy, 1 + index as u32 % 24, 5_000, 10, 1)
            });
            books.push(full.book());
        }
    }
    books
}
