//! Layer 1: the book in bytes, and its own refusals 1 to 6 and 9 to 11.

use std::collections::BTreeMap;

/// Hours of the clock, each with a row in the result, whatever the day's length.
pub const HOURS: u32 = 24;

/// The hour that is there twice in autumn and not at all in spring.
pub const CHANGED_HOUR: u32 = 3;

const RECORD_LENGTH: usize = 16;
const MOST_RECORDS: usize = 2_048;
const MOST_BLOCKS: usize = 32;
const KIND_STEP: u32 = 1;
const KIND_BLOCK: u32 = 2;
const KIND_LINK: u32 = 3;

/// What an edition allows a portfolio.
#[derive(Clone, Copy, Debug, PartialEq, Eq)]
pub struct Limits {
    /// The greatest quantity of a block, in tenths of a MW.
    pub block_quantity: u32,
    /// The most blocks of one portfolio, both sides together.
    pub blocks_of_a_portfolio: usize,
    /// The most steps of one portfolio in one hour, both sides together, where there is such
    /// a limit.
    pub steps_in_an_hour: Option<usize>,
}

/// The limits of an edition, where there is such an edition.
pub fn limits(edition: u32) -> Option<Limits> {
    match edition {
        1 => Some(Limits { block_quantity: 50, blocks_of_a_portfolio: 5, steps_in_an_hour: None }),
        // Edition 3 has all of edition 2, and edition 4 all of edition 3 but for its steps.
        2..=4 => Some(Limits {
            block_quantity: 250,
            blocks_of_a_portfolio: 10,
            steps_in_an_hour: (edition == 4).then_some(256),
        }),
        _ => None,
    }
}

/// The hours of a day one after another as the clock shows them, where there is a day of
/// this length. So hour 3 stands in it twice on a day of 25 hours and is missing on one of
/// 23; what goes over these hours counts each as often as the day does.
pub fn passing_hours(length: u32) -> Option<Vec<u32>> {
    let times = match length {
        23 => 0,
        24 => 1,
        25 => 2,
        _ => return None,
    };
    let before = 1..CHANGED_HOUR;
    let changed = (0..times).map(|_| CHANGED_HOUR);
    Some(before.chain(changed).chain(CHANGED_HOUR + 1..=HOURS).collect())
}

/// Buy or sell.
#[derive(Clone, Copy, Debug, PartialEq, Eq)]
pub enum Side {
    Buy,
    Sell,
}

/// An hourly step.
#[derive(Clone, Copy, Debug, PartialEq, Eq)]
pub struct Step {
    /// Index of the record the step stands in.
    pub record: usize,
    pub number: u32,
    pub side: Side,
    /// 1 to 24.
    pub hour: u32,
    pub portfolio: u32,
    /// Cents per MWh.
    pub price: u32,
    /// Tenths of a MW.
    pub quantity: u32,
}

/// An all-or-none block.
#[derive(Clone, Copy, Debug, PartialEq, Eq)]
pub struct Block {
    /// Index of the record the block stands in.
    pub record: usize,
    pub number: u32,
    pub side: Side,
    pub portfolio: u32,
    /// 24 bits; hour h has the weight 2 to the power h - 1.
    pub hours: u32,
    pub price: u32,
    pub quantity: u32,
}

impl Block {
    /// Whether the block names this hour, 1 to 24.
    pub fn has_hour(&self, hour: u32) -> bool {
        (self.hours >> (hour - 1)) & 1 == 1
    }
}

/// That a block may be taken only with another.
#[derive(Clone, Copy, Debug, PartialEq, Eq)]
pub struct Link {
    /// Index of the record the link stands in.
    pub record: usize,
    /// The number of the block that needs the other.
    pub child: u32,
    /// The number of the block that it needs.
    pub parent: u32,
}

/// An accepted book. The lists are in chain order, so in rising order number; links in
/// rising number of their children.
#[derive(Clone, Debug, PartialEq, Eq)]
pub struct Book {
    /// 1 to 4.
    pub edition: u32,
    /// The hours of the day as they pass, see [`passing_hours`]; 23, 24 or 25 of them.
    pub hours: Vec<u32>,
    /// R, the head included.
    pub record_count: usize,
    pub steps: Vec<Step>,
    pub blocks: Vec<Block>,
    /// None but from edition 3 on.
    pub links: Vec<Link>,
}

impl Book {
    /// The steps of one hour, in rising order number.
    pub fn steps_of(&self, hour: u32) -> Vec<Step> {
        let of_hour = self.steps.iter().filter(|step| step.hour == hour);
        of_hour.copied().collect()
    }

    /// The hours of the day in which a block delivers, one that passes twice twice.
    pub fn hours_of(&self, block: &Block) -> Vec<u32> {
        self.hours.iter().copied().filter(|&hour| block.has_hour(hour)).collect()
    }
}

/// Reads a book, or gives the first of the refusals 1 to 6 and 9 to 11 whose cause holds.
pub fn read(book: &[u8]) -> Result<Book, u8> {
    if length_is_wrong(book) {
        return Err(1);
    }
    // Edition and day are known before any order is looked at: 2 before 4, 6 and 9.
    let (limits, hours) = head(book).ok_or(2)?;
    // All chains are walked before any other field is looked at: 3 before 4.
    let step_records = chain(book, number(book, 2, 2), KIND_STEP)?;
    let block_records = chain(book, number(book, 4, 2), KIND_BLOCK)?;
    // In editions 1 and 2 these bytes are 0, so that this chain is empty.
    let link_records = chain(book, number(book, 8, 2), KIND_LINK)?;
    let bad_step = step_records.iter().any(|&k| step_is_out_of_range(book, k));
    let bad_block = block_records.iter().any(|&k| block_is_out_of_range(book, k, limits));
    let bad_link = link_records.iter().any(|&k| link_is_out_of_range(book, k));
    if bad_step || bad_block || bad_link {
        return Err(4);
    }
    let chained = [&step_records[..], &block_records, &link_records].concat();
    if !(1..record_count(book)).all(|k| chained.contains(&k)) {
        return Err(5);
    }
    let blocks: Vec<Block> = block_records.iter().map(|&k| block_at(book, k)).collect();
    if too_many_blocks(&blocks, limits) {
        return Err(6);
    }
    let book = Book {
        edition: edition(book),
        hours,
        record_count: record_count(book),
        steps: step_records.iter().map(|&k| step_at(book, k)).collect(),
        blocks,
        links: link_records.iter().map(|&k| link_at(book, k)).collect(),
    };
    if trades_beside_the_day(&book) {
        return Err(9);
    }
    if book.links.iter().any(|link| is_no_link_of(&book, link)) {
        return Err(10);
    }
    if limits.steps_in_an_hour.is_some_and(|most| has_more_steps(&book.steps, most)) {
        return Err(11);
    }
    Ok(book)
}

/// The number in `count` bytes from byte `at` on, high byte first.
fn number(book: &[u8], at: usize, count: usize) -> u32 {
    let bytes = &book[at..at + count];
    bytes.iter().fold(0, |high, &byte| high * 256 + u32::from(byte))
}

/// The number in some bytes of record k.
fn field(book: &[u8], k: usize, at: usize, count: usize) -> u32 {
    number(book, RECORD_LENGTH * k + at, count)
}

/// R; asked for only where there are at least 16 bytes.
fn record_count(book: &[u8]) -> usize {
    number(book, 0, 2) as usize
}

/// Refusal 1.
fn length_is_wrong(book: &[u8]) -> bool {
    // Below 16 bytes there is no head to read R from.
    if book.len() < RECORD_LENGTH {
        return true;
    }
    let records = record_count(book);
    book.len() != RECORD_LENGTH * records || !(1..=MOST_RECORDS).contains(&records)
}

fn edition(book: &[u8]) -> u32 {
    number(book, 7, 1)
}

/// The limits of the head's edition and the hours of its day; nothing where the head is
/// wrong, refusal 2.
fn head(book: &[u8]) -> Option<(Limits, Vec<u32>)> {
    let edition = edition(book);
    // From edition 3 on the links are headed at bytes 8 and 9.
    let rest = if edition >= 3 { &book[10..16] } else { &book[8..16] };
    let limits = limits(edition).filter(|_| rest.iter().all(|&byte| byte == 0))?;
    Some((limits, passing_hours(number(book, 6, 1))?))
}

/// The records of a chain in its order, or refusal 3.
///
/// The walk ends because the numbers rise: it cannot come to a record twice.
fn chain(book: &[u8], first: u32, kind: u32) -> Result<Vec<usize>, u8> {
    let mut records = Vec::new();
    let mut number_before = 0;
    let mut k = first as usize;
    while k != 0 {
        if k >= record_count(book) {
            return Err(3);
        }
        let order_number = field(book, k, 4, 2);
        if field(book, k, 0, 1) != kind || order_number <= number_before {
            return Err(3);
        }
        records.push(k);
        number_before = order_number;
        k = field(book, k, 2, 2) as usize;
    }
    Ok(records)
}

/// Refusal 4 at a step.
fn step_is_out_of_range(book: &[u8], k: usize) -> bool {
    let side = field(book, k, 1, 1);
    let hour = field(book, k, 6, 1);
    let portfolio = field(book, k, 7, 1);
    let price = field(book, k, 8, 4);
    let quantity = field(book, k, 12, 4);
    side > 1
        || !(1..=HOURS).contains(&hour)
        || !(1..=255).contains(&portfolio)
        || !(1..=300_000).contains(&price)
        || !(1..=99_999).contains(&quantity)
}

/// Refusal 4 at a block.
fn block_is_out_of_range(book: &[u8], k: usize, limits: Limits) -> bool {
    let side = field(book, k, 1, 1);
    let zero = field(book, k, 6, 1);
    let portfolio = field(book, k, 7, 1);
    let hours = field(book, k, 8, 3);
    let price = field(book, k, 11, 3);
    let quantity = field(book, k, 14, 2);
    side > 1
        || zero != 0
        || !(1..=255).contains(&portfolio)
        || hours.count_ones() < 2
        || !(1..=300_000).contains(&price)
        || !(1..=limits.block_quantity).contains(&quantity)
}

/// Refusal 4 at a link. Its parent has no range: any number that names no block is 10.
fn link_is_out_of_range(book: &[u8], k: usize) -> bool {
    field(book, k, 1, 1) != 0 || (8..16).any(|at| field(book, k, at, 1) != 0)
}

/// Refusal 6: 32 blocks at most in every edition, and of one portfolio those of the
/// edition. Both sides of a portfolio count together.
fn too_many_blocks(blocks: &[Block], limits: Limits) -> bool {
    let count_of = |portfolio| blocks.iter().filter(|block| block.portfolio == portfolio).count();
    let crowded = (1..=255).any(|portfolio| count_of(portfolio) > limits.blocks_of_a_portfolio);
    blocks.len() > MOST_BLOCKS || crowded
}

/// Refusal 9: a step for an hour that the day does not have, or a block with fewer than
/// two hours of the day. Two hours are named by every block, so that this happens on a day
/// of 23 hours alone.
fn trades_beside_the_day(book: &Book) -> bool {
    book.steps.iter().any(|step| !book.hours.contains(&step.hour))
        || book.blocks.iter().any(|block| book.hours_of(block).len() < 2)
}

/// Refusal 10: a link that names a block not in the book, or whose parent's number is not
/// below the child's. Blocks are numbered from 1, so that a parent of 0 is not in the book.
fn is_no_link_of(book: &Book, link: &Link) -> bool {
    let is_there = |number: u32| book.blocks.iter().any(|block| block.number == number);
    !is_there(link.child) || !is_there(link.parent) || link.parent >= link.child
}

/// Refusal 11: more steps of one portfolio in one hour than these.
fn has_more_steps(steps: &[Step], most: usize) -> bool {
    let mut counts = BTreeMap::new();
    for step in steps {
        *counts.entry((step.portfolio, step.hour)).or_insert(0) += 1;
    }
    counts.values().any(|&count| count > most)
}

fn side_at(book: &[u8], k: usize) -> Side {
    if field(book, k, 1, 1) == 0 {
        Side::Buy
    } else {
        Side::Sell
    }
}

fn step_at(book: &[u8], k: usize) -> Step {
    Step {
        record: k,
        number: field(book, k, 4, 2),
        side: side_at(book, k),
        hour: field(book, k, 6, 1),
        portfolio: field(book, k, 7, 1),
        price: field(book, k, 8, 4),
        quantity: field(book, k, 12, 4),
    }
}

fn block_at(book: &[u8], k: usize) -> Block {
    Block {
        record: k,
        number: field(book, k, 4, 2),
        side: side_at(book, k),
        portfolio: field(book, k, 7, 1),
        hours: field(book, k, 8, 3),
        price: field(book, k, 11, 3),
        quantity: field(book, k, 14, 2),
    }
}

fn link_at(book: &[u8], k: usize) -> Link {
    Link { record: k, child: field(book, k, 4, 2), parent: field(book, k, 6, 2) }
}
