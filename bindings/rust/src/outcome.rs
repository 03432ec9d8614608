//! A result, decoded.

use crate::header;

const HOURS: usize = header::HOURS as usize;
const RECORD_SIZE: usize = header::RECORD_SIZE as usize;

/// What is published of an accepted book.
#[derive(Clone, Debug, PartialEq, Eq)]
pub struct Outcome {
    /// In tenths of a cent.
    pub welfare: u64,
    /// Cents per MWh; the first element is hour 1. Hour 3 of a day of 23 hours has 0.
    pub prices: [u32; HOURS],
    /// Tenths of a MW; the first element is hour 1. Hour 3 of a day of 25 hours, which is there
    /// twice, has what is traded each time.
    pub traded: [u32; HOURS],
    /// The orders and links as they stand in the book; the first element is record 1.
    pub rows: Vec<Row>,
}

/// Hourly steps and all-or-none blocks are numbered separately. A link is no order.
#[derive(Clone, Copy, Debug, PartialEq, Eq, Hash)]
pub enum Kind {
    Step,
    Block,
    Link,
}

/// What an order gets; a link gets 0.
#[derive(Clone, Copy, Debug, PartialEq, Eq)]
pub struct Row {
    pub kind: Kind,
    /// The order's number among those of its kind; of a link its child's number.
    pub number: u32,
    /// The executed quantity in each of its hours, in tenths of a MW; of a block that is left
    /// out 0, of a step at the price its share.
    pub executed: u32,
}

impl Outcome {
    /// Takes the result of an accepted book apart.
    pub(crate) fn of(book: &[u8], result: &[u8]) -> Outcome {
        let pair = |hour: usize| 8 + 8 * hour;
        Outcome {
            welfare: number_at(result, 0, 8),
            prices: std::array::from_fn(|hour| number_at(result, pair(hour), 4) as u32),
            traded: std::array::from_fn(|hour| number_at(result, pair(hour) + 4, 4) as u32),
            rows: (1..book.len() / RECORD_SIZE).map(|record| row(book, result, record)).collect(),
        }
    }

    /// The price of an hour, 1 to 24.
    ///
    /// # Panics
    /// For any other hour, as [`Outcome::traded`] does.
    pub fn price(&self, hour: usize) -> u32 {
        self.prices[hour - 1]
    }

    /// The traded quantity of an hour, 1 to 24.
    pub fn traded(&self, hour: usize) -> u32 {
        self.traded[hour - 1]
    }

    /// What the step of this number gets, where there is one.
    pub fn step(&self, number: u32) -> Option<u32> {
        self.executed(Kind::Step, number)
    }

    /// What the block of this number gets in each of its hours, where there is one.
    pub fn block(&self, number: u32) -> Option<u32> {
        self.executed(Kind::Block, number)
    }

    fn executed(&self, kind: Kind, number: u32) -> Option<u32> {
        let mut rows = self.rows.iter();
        rows.find(|row| (row.kind, row.number) == (kind, number)).map(|row| row.executed)
    }

    /// The numbers of the taken blocks, rising.
    pub fn taken(&self) -> impl Iterator<Item = u32> {
        self.blocks().into_iter().filter(|row| row.executed > 0).map(|row| row.number)
    }

    /// The taken blocks as a set for [`price`](crate::price): the lowest bit is the block of
    /// the lowest number, which is the first of the chain.
    pub fn set(&self) -> u32 {
        let positions = self.blocks().into_iter().enumerate();
        positions.filter(|(_, row)| row.executed > 0).map(|(position, _)| 1 << position).sum()
    }

    /// The rows of the blocks in rising number.
    fn blocks(&self) -> Vec<Row> {
        let rows = self.rows.iter().filter(|row| row.kind == Kind::Block);
        let mut blocks: Vec<Row> = rows.copied().collect();
        blocks.sort_by_key(|row| row.number);
        blocks
    }
}

/// The number in some bytes, high byte first.
fn number_at(bytes: &[u8], at: usize, count: usize) -> u64 {
    bytes[at..at + count].iter().fold(0, |high, &byte| high << 8 | u64::from(byte))
}

/// The row of a record from 1 on: the book says of which order it is.
fn row(book: &[u8], result: &[u8], record: usize) -> Row {
    let order = &book[RECORD_SIZE * record..][..RECORD_SIZE];
    let executed_at = header::RESULT_HEAD as usize + header::RESULT_RECORD as usize * record;
    Row {
        kind: match order[0] {
            1 => Kind::Step,
            2 => Kind::Block,
            _ => Kind::Link,
        },
        number: number_at(order, 4, 2) as u32,
        executed: number_at(result, executed_at, 4) as u32,
    }
}
