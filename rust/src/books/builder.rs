//! Orders to the bytes of a book.

use super::dice::Dice;
use crate::paper::Side;

/// A step to be written. No field is checked: a wrong one makes a refused book.
#[derive(Clone, Copy, Debug, PartialEq, Eq)]
pub struct StepOrder {
    pub number: u32,
    pub side: Side,
    pub hour: u32,
    pub price: u32,
    pub quantity: u32,
    pub portfolio: u32,
}

/// A block to be written. No field is checked.
#[derive(Clone, Copy, Debug, PartialEq, Eq)]
pub struct BlockOrder {
    pub number: u32,
    pub side: Side,
    /// 24 bits, see [`hour_bits`].
    pub hours: u32,
    pub price: u32,
    pub quantity: u32,
    pub portfolio: u32,
}

/// A link to be written. No field is checked.
#[derive(Clone, Copy, Debug, PartialEq, Eq)]
pub struct LinkOrder {
    /// The number of the block that may be taken only with its parent.
    pub child: u32,
    pub parent: u32,
}

/// The orders of a book and their links; each list is a chain in its order.
#[derive(Clone, Debug, PartialEq, Eq)]
pub struct Orders {
    /// Edition 1, where nothing else is said.
    pub edition: u32,
    /// The hours of the day; 24, where nothing else is said.
    pub day: u32,
    pub steps: Vec<StepOrder>,
    pub blocks: Vec<BlockOrder>,
    /// Of edition 3 and later ones; in the others they make a refused book.
    pub links: Vec<LinkOrder>,
}

impl Default for Orders {
    fn default() -> Orders {
        Orders { edition: 1, day: 24, steps: Vec::new(), blocks: Vec::new(), links: Vec::new() }
    }
}

/// The 24 bits of a block's hours.
pub fn hour_bits(hours: &[u32]) -> u32 {
    hours.iter().fold(0, |bits, hour| bits | 1 << (hour - 1))
}

/// The hours of the 24 bits of a block, rising.
pub fn hours_in(bits: u32) -> Vec<u32> {
    (1..=24).filter(|hour| (bits >> (hour - 1)) & 1 == 1).collect()
}

impl Orders {
    /// No orders yet.
    pub fn new() -> Orders {
        Orders::default()
    }

    /// The same orders in a book of another edition; it is not checked either.
    pub fn of_edition(mut self, edition: u32) -> Orders {
        self.edition = edition;
        self
    }

    /// The same orders on a day of so many hours; their number is not checked either.
    pub fn on_day_of(mut self, hours: u32) -> Orders {
        self.day = hours;
        self
    }

    /// Adds a step, numbered one more than the step before it.
    pub fn step(
        mut self,
        side: Side,
        hour: u32,
        price: u32,
        quantity: u32,
        portfolio: u32,
    ) -> Orders {
        let number = self.steps.last().map_or(1, |step| step.number + 1);
        self.steps.push(StepOrder { number, side, hour, price, quantity, portfolio });
        self
    }

    /// Adds a block, numbered one more than the block before it.
    pub fn block(
        mut self,
        side: Side,
        hours: &[u32],
        price: u32,
        quantity: u32,
        portfolio: u32,
    ) -> Orders {
        let number = self.blocks.last().map_or(1, |block| block.number + 1);
        let hours = hour_bits(hours);
        self.blocks.push(BlockOrder { number, side, hours, price, quantity, portfolio });
        self
    }

    /// Adds a link behind those that there are.
    pub fn link(mut self, child: u32, parent: u32) -> Orders {
        self.links.push(LinkOrder { child, parent });
        self
    }

    /// How many records there are beside the head: steps, blocks and links.
    pub fn count(&self) -> usize {
        self.steps.len() + self.blocks.len() + self.links.len()
    }

    /// The book with the steps in records 1, 2, .., then the blocks, then the links.
    pub fn book(&self) -> Vec<u8> {
        let places: Vec<usize> = (1..=self.count()).collect();
        self.book_at(&places)
    }

    /// The book with its records in a random order.
    pub fn shuffled_book(&self, dice: &mut Dice) -> Vec<u8> {
        let mut places: Vec<usize> = (1..=self.count()).collect();
        dice.shuffle(&mut places);
        self.book_at(&places)
    }

    /// The book with each order and link in the record given for it, steps first, then
    /// blocks. The places are the numbers 1 to the count of records in any order.
    pub fn book_at(&self, places: &[usize]) -> Vec<u8> {
        assert_eq!(places.len(), self.count(), "one place for each order");
        let (step_places, others) = places.split_at(self.steps.len());
        let (block_places, link_places) = others.split_at(self.blocks.len());
        let mut book = vec![0; 16 * (self.count() + 1)];
        self.write_head(&mut book, [step_places, block_places, link_places].map(first));
        for (index, step) in self.steps.iter().enumerate() {
            write_step(&mut book, step_places[index], first(&step_places[index + 1..]), step);
        }
        for (index, block) in self.blocks.iter().enumerate() {
            write_block(&mut book, block_places[index], first(&block_places[index + 1..]), block);
        }
        for (index, link) in self.links.iter().enumerate() {
            write_link(&mut book, link_places[index], first(&link_places[index + 1..]), link);
        }
        book
    }

    fn write_head(&self, book: &mut [u8], first_of_chains: [usize; 3]) {
        let record_count = book.len() / 16;
        put(book, 0, 0, 2, record_count as u32);
        for (at, first) in [2, 4, 8].into_iter().zip(first_of_chains) {
            put(book, 0, at, 2, first as u32);
        }
        put(book, 0, 6, 1, self.day);
        put(book, 0, 7, 1, self.edition);
    }
}

/// The first place of a chain's rest, or 0, which ends the chain.
fn first(places: &[usize]) -> usize {
    places.first().copied().unwrap_or(0)
}

/// Writes a number into some bytes of record k, high byte first. Higher bytes
/// that do not fit are lost.
pub(super) fn put(book: &mut [u8], k: usize, at: usize, count: usize, number: u32) {
    let start = 16 * k + at;
    book[start..start + count].copy_from_slice(&number.to_be_bytes()[4 - count..]);
}

fn write_step(book: &mut [u8], k: usize, next: usize, step: &StepOrder) {
    put(book, k, 0, 1, 1);
    put(book, k, 1, 1, side_byte(step.side));
    put(book, k, 2, 2, next as u32);
    put(book, k, 4, 2, step.number);
    put(book, k, 6, 1, step.hour);
    put(book, k, 7, 1, step.portfolio);
    put(book, k, 8, 4, step.price);
    put(book, k, 12, 4, step.quantity);
}

fn write_block(book: &mut [u8], k: usize, next: usize, block: &BlockOrder) {
    put(book, k, 0, 1, 2);
    put(book, k, 1, 1, side_byte(block.side));
    put(book, k, 2, 2, next as u32);
    put(book, k, 4, 2, block.number);
    put(book, k, 7, 1, block.portfolio);
    put(book, k, 8, 3, block.hours);
    put(book, k, 11, 3, block.price);
    put(book, k, 14, 2, block.quantity);
}

fn write_link(book: &mut [u8], k: usize, next: usize, link: &LinkOrder) {
    put(book, k, 0, 1, 3);
    put(book, k, 2, 2, next as u32);
    put(book, k, 4, 2, link.child);
    put(book, k, 6, 2, link.parent);
}

fn side_byte(side: Side) -> u32 {
    match side {
        Side::Buy => 0,
        Side::Sell => 1,
    }
}
