//! Layer 3: lawful sets, their welfare, and the one that is published.

use super::hour::{ends_of, executed_by};
use super::read::{read, Block, Book, Side, Step, HOURS};
use super::shares::{fair_shares, SharingRule};
use super::shift::{prices_at_shift, shift_of, Ends};

/// What a lawful set gives.
#[derive(Clone, Debug, PartialEq, Eq)]
pub struct Outcome {
    /// The lowest bit stands for the first block of the chain.
    pub set: u32,
    /// Where the prices stand between L and H, see `shift`; 500 in editions 1 to 3.
    pub shift: u32,
    /// Prices of hours 1 to 24; 0 for an hour that the day does not have.
    pub prices: [u32; 24],
    /// Traded quantities of hours 1 to 24: buy steps and buy blocks. An hour that passes
    /// twice has one row, so what is traded each time.
    pub traded: [i64; 24],
    /// The executed quantity of each step, in chain order.
    pub executed: Vec<i64>,
    pub welfare: i128,
}

/// The result buffer's length for a book of R records.
pub fn result_length(record_count: usize) -> usize {
    196 + 4 * record_count
}

/// The result buffer's length for what any bytes say of themselves, if they say anything.
pub fn result_length_for(book: &[u8]) -> usize {
    let record_count = book.get(..2).map_or(0, |r| u16::from_be_bytes([r[0], r[1]]));
    result_length(usize::from(record_count))
}

/// Clears the day: the bytes of the result, or a refusal.
///
/// Every set of blocks is looked at, so the time doubles with each block.
pub fn clear(book: &[u8], result_len: usize) -> Result<Vec<u8>, u8> {
    let book = read(book)?;
    if result_len != result_length(book.record_count) {
        return Err(7);
    }
    Ok(result_bytes(&book, &best_outcome(&book, fair_shares)))
}

/// The best of all sets, by counting them, where steps at the price share by a rule.
pub fn best_outcome(book: &Book, rule: SharingRule) -> Outcome {
    let hours = steps_by_hour(book);
    let mut best = outcome_with(book, &hours, 0, rule).expect("the empty set is lawful");
    for set in 1..1u64 << book.blocks.len() {
        if let Some(other) = outcome_with(book, &hours, set as u32, rule) {
            if is_better((other.welfare, other.set), (best.welfare, best.set)) {
                best = other;
            }
        }
    }
    best
}

/// The outcome under a set, or nothing when the set is not lawful or lacks the parent of
/// one of its blocks.
pub fn outcome(book: &Book, set: u32) -> Option<Outcome> {
    outcome_with(book, &steps_by_hour(book), set, fair_shares)
}

fn steps_by_hour(book: &Book) -> Vec<Vec<Step>> {
    (1..=HOURS).map(|hour| book.steps_of(hour)).collect()
}

fn outcome_with(book: &Book, hours: &[Vec<Step>], set: u32, rule: SharingRule) -> Option<Outcome> {
    if !holds_parents(book, set) {
        return None;
    }
    let ends = ends_under(book, hours, set)?;
    let shift = shift_of(book, set, &ends)?;
    let prices = prices_at_shift(&ends, shift);
    let executed = executed_steps(book, set, &prices, rule);
    Some(Outcome {
        set,
        shift,
        prices,
        traded: traded_quantities(book, set, &executed),
        welfare: welfare(book, set, &executed),
        executed,
    })
}

/// The blocks of a set.
pub(super) fn taken_blocks(blocks: &[Block], set: u32) -> impl Iterator<Item = &Block> {
    let positions = blocks.iter().enumerate();
    positions.filter(move |(position, _)| (set >> position) & 1 == 1).map(|(_, block)| block)
}

/// "A child may be taken only with its parent": each link is tried by the numbers of the
/// taken blocks. A book without links has only such sets.
pub fn holds_parents(book: &Book, set: u32) -> bool {
    let is_taken = |number: u32| taken_blocks(&book.blocks, set).any(|it| it.number == number);
    book.links.iter().all(|link| !is_taken(link.child) || is_taken(link.parent))
}

/// N: block sales less block purchases of a set in an hour.
pub fn net_block_sales(blocks: &[Block], set: u32, hour: u32) -> i64 {
    let in_hour = taken_blocks(blocks, set).filter(|block| block.has_hour(hour));
    let signed = in_hour.map(|block| match block.side {
        Side::Sell => i64::from(block.quantity),
        Side::Buy => -i64::from(block.quantity),
    });
    signed.sum()
}

/// L and H of the 24 hours under a set, or nothing when some hour of the day does not clear.
/// An hour that the day does not have needs no balance and has no price.
pub(super) fn ends_under(book: &Book, hours: &[Vec<Step>], set: u32) -> Option<Ends> {
    let mut ends = [(0, 0); 24];
    for &hour in &book.hours {
        let index = hour as usize - 1;
        let n = net_block_sales(&book.blocks, set, hour);
        ends[index] = ends_of(&hours[index], n)?;
    }
    Some(ends)
}

/// Whether a block of a book keeps its limit: the SUM of prices over its hours of the day
/// against its price times their count.
pub fn keeps_limit(book: &Book, block: &Block, prices: &[u32; 24]) -> bool {
    keeps_limit_over(block, &book.hours_of(block), |hour| prices[hour as usize - 1])
}

/// The same over these hours, those of the day in which the block delivers, with a price for
/// each.
pub(super) fn keeps_limit_over(block: &Block, hours: &[u32], price: impl Fn(u32) -> u32) -> bool {
    let sum: u32 = hours.iter().map(|&hour| price(hour)).sum();
    let limit = block.price * hours.len() as u32;
    match block.side {
        Side::Sell => sum >= limit,
        Side::Buy => sum <= limit,
    }
}

/// The executed quantity of each step of the book, in chain order.
fn executed_steps(book: &Book, set: u32, prices: &[u32; 24], rule: SharingRule) -> Vec<i64> {
    let mut quantities = vec![0; book.steps.len()];
    for &hour in &book.hours {
        let steps = book.steps_of(hour);
        let n = net_block_sales(&book.blocks, set, hour);
        let of_hour = executed_by(rule, &steps, n, prices[hour as usize - 1]);
        for (step, quantity) in steps.iter().zip(of_hour) {
            let place = book.steps.iter().position(|other| other.record == step.record);
            quantities[place.expect("a step of the book")] = quantity;
        }
    }
    quantities
}

/// Executed buy steps and taken buy blocks of each hour.
fn traded_quantities(book: &Book, set: u32, executed: &[i64]) -> [i64; 24] {
    let mut traded = [0; 24];
    for &hour in &book.hours {
        let bought = trades_in(book, set, executed, hour)
            .filter(|trade| trade.side == Side::Buy)
            .map(|trade| trade.quantity);
        // Set and not added to: an hour that passes twice trades the same each time.
        traded[hour as usize - 1] = bought.sum();
    }
    traded
}

/// Executed quantity times order price, buys less sells, over the orders that trade in
/// each hour of the day as it passes.
pub(super) fn welfare(book: &Book, set: u32, executed: &[i64]) -> i128 {
    let worth = |trade: Trade| {
        let amount = i128::from(trade.quantity) * i128::from(trade.price);
        match trade.side {
            Side::Buy => amount,
            Side::Sell => -amount,
        }
    };
    let in_hour = |&hour: &u32| trades_in(book, set, executed, hour).map(worth).sum::<i128>();
    book.hours.iter().map(in_hour).sum()
}

/// What an order trades in an hour.
struct Trade {
    side: Side,
    price: u32,
    quantity: i64,
}

/// The trades of an hour: its steps as executed and the taken blocks that have it.
fn trades_in<'a>(
    book: &'a Book,
    set: u32,
    executed: &'a [i64],
    hour: u32,
) -> impl Iterator<Item = Trade> + 'a {
    let steps = book.steps.iter().zip(executed).filter(move |(step, _)| step.hour == hour);
    let steps =
        steps.map(|(step, &quantity)| Trade { side: step.side, price: step.price, quantity });
    let blocks = taken_blocks(&book.blocks, set).filter(move |block| block.has_hour(hour));
    let blocks = blocks.map(|block| Trade {
        side: block.side,
        price: block.price,
        quantity: i64::from(block.quantity),
    });
    steps.chain(blocks)
}

/// Whether the first of two (welfare, set) is to be published before the second.
pub fn is_better(one: (i128, u32), other: (i128, u32)) -> bool {
    one.0 > other.0 || (one.0 == other.0 && tie_goes_to(one.1, other.1))
}

/// Whether the first set "holds the lowest-numbered block in which they differ".
/// Positions follow the chain, whose numbers rise.
pub fn tie_goes_to(one: u32, other: u32) -> bool {
    let holds = |set: u32, position: &u32| (set >> position) & 1 == 1;
    let lowest_difference = (0..32).find(|p| holds(one, p) != holds(other, p));
    lowest_difference.is_some_and(|position| holds(one, &position))
}

/// The result buffer: welfare, the 24 hours, the records 1 to R - 1; a link has 0.
pub fn result_bytes(book: &Book, outcome: &Outcome) -> Vec<u8> {
    let mut rows = vec![0u32; book.record_count];
    for (step, &quantity) in book.steps.iter().zip(&outcome.executed) {
        rows[step.record] = u32::try_from(quantity).expect("0 to the step's own quantity");
    }
    for block in taken_blocks(&book.blocks, outcome.set) {
        rows[block.record] = block.quantity;
    }
    let welfare = u64::try_from(outcome.welfare).expect("no lawful set loses welfare");
    let mut bytes = welfare.to_be_bytes().to_vec();
    for (price, &traded) in outcome.prices.iter().zip(&outcome.traded) {
        let traded = u32::try_from(traded).expect("an hour's total fits");
        bytes.extend(price.to_be_bytes());
        bytes.extend(traded.to_be_bytes());
    }
    for row in &rows[1..] {
        bytes.extend(row.to_be_bytes());
    }
    bytes
}

/// A result buffer, taken apart again.
#[derive(Clone, Debug, PartialEq, Eq)]
pub struct Published {
    pub welfare: u64,
    /// Hours 1 to 24.
    pub prices: Vec<u32>,
    /// Hours 1 to 24.
    pub traded: Vec<u32>,
    /// Records 1 to R - 1; the first element is record 1.
    pub rows: Vec<u32>,
}

impl Published {
    /// Takes the bytes of a result apart.
    pub fn from_bytes(result: &[u8]) -> Published {
        let number =
            |at: usize| u32::from_be_bytes(result[at..at + 4].try_into().expect("4 bytes"));
        Published {
            welfare: u64::from_be_bytes(result[..8].try_into().expect("8 bytes")),
            prices: (0..24).map(|hour| number(8 + 8 * hour)).collect(),
            traded: (0..24).map(|hour| number(12 + 8 * hour)).collect(),
            rows: (200..result.len()).step_by(4).map(number).collect(),
        }
    }

    /// The executed quantity of a record, 1 to R - 1.
    pub fn row(&self, record: usize) -> u32 {
        self.rows[record - 1]
    }

    /// The taken blocks: those whose row holds their quantity.
    pub fn set(&self, book: &Book) -> u32 {
        let taken = |block: &Block| self.row(block.record) == block.quantity;
        let positions = (0..book.blocks.len()).filter(|&position| taken(&book.blocks[position]));
        positions.map(|position| 1 << position).sum()
    }
}
