//! Layer 2: the price of one hour under a set of blocks, and what its steps
//! execute at that price.

use super::day::net_block_sales;
use super::read::{read, Side, Step};
use super::shares::{fair_shares, SharingRule};

/// Lowest price of the auction, in cents per MWh.
pub const LOWEST_PRICE: u32 = 1;
/// Highest price of the auction, in cents per MWh.
pub const HIGHEST_PRICE: u32 = 300_000;

/// The three answers of pricing an hour.
#[derive(Clone, Copy, Debug, PartialEq, Eq)]
pub enum HourAnswer {
    /// L, H and the price between them.
    Cleared { low: u32, high: u32, price: u32 },
    /// No price clears the hour under the set.
    NotClearing,
    /// Refused with its number.
    Refused(u8),
}

/// What stands for an hour that does not clear where an answer is one number: no refusal,
/// since they are bytes.
pub const DOES_NOT_CLEAR: u32 = 256;

impl HourAnswer {
    /// The answer in numbers: 0, [`DOES_NOT_CLEAR`] or the refusal; then L, H and the
    /// price, 0 where there is none.
    pub fn parts(self) -> [u32; 4] {
        match self {
            HourAnswer::Cleared { low, high, price } => [0, low, high, price],
            HourAnswer::NotClearing => [DOES_NOT_CLEAR, 0, 0, 0],
            HourAnswer::Refused(refusal) => [u32::from(refusal), 0, 0, 0],
        }
    }
}

/// A way to find the least and the greatest clearing price, if there are any.
type EndFinder = fn(&[Step], i64) -> Option<(u32, u32)>;

/// Prices hour `hour` of a book under a set of blocks; the lowest bit of the
/// set stands for the first block of the chain.
pub fn price_hour(book: &[u8], set: u32, hour: u32) -> HourAnswer {
    price_hour_with(candidates, book, set, hour)
}

/// The same as [`price_hour`], but every price from 1 to 300000 is tried.
pub fn price_hour_by_scan(book: &[u8], set: u32, hour: u32) -> HourAnswer {
    price_hour_with(scan, book, set, hour)
}

fn price_hour_with(ends: EndFinder, book: &[u8], set: u32, hour: u32) -> HourAnswer {
    let book = match read(book) {
        Ok(book) => book,
        Err(refusal) => return HourAnswer::Refused(refusal),
    };
    // Hours outside 1 to 24 are on no day, and hour 3 is not on one of 23 hours.
    if !book.hours.contains(&hour) || names_a_missing_block(set, book.blocks.len()) {
        return HourAnswer::Refused(8);
    }
    let n = net_block_sales(&book.blocks, set, hour);
    answer(ends, &book.steps_of(hour), n)
}

/// Whether the set has a bit that stands for no block.
fn names_a_missing_block(set: u32, block_count: usize) -> bool {
    (0..32).any(|position| (set >> position) & 1 == 1 && position >= block_count)
}

/// The answer for the steps of one hour with `n`, block sales less block
/// purchases.
fn answer(ends: EndFinder, steps: &[Step], n: i64) -> HourAnswer {
    if beyond_totals(steps, n) {
        return HourAnswer::NotClearing;
    }
    let (low, high) = ends(steps, n).expect("some price clears where N is within the totals");
    let price = (low + high) / 2;
    HourAnswer::Cleared { low, high, price }
}

/// L and H of an hour, or nothing where the hour does not clear.
pub(super) fn ends_of(steps: &[Step], n: i64) -> Option<(u32, u32)> {
    match answer(candidates, steps, n) {
        HourAnswer::Cleared { low, high, .. } => Some((low, high)),
        _ => None,
    }
}

/// The middle price of an hour, or nothing where the hour does not clear.
pub(super) fn middle_price(steps: &[Step], n: i64) -> Option<u32> {
    ends_of(steps, n).map(|(low, high)| (low + high) / 2)
}

/// "N exceeds all buy steps of the hour together, or -N exceeds all its sell
/// steps together."
pub fn beyond_totals(steps: &[Step], n: i64) -> bool {
    n > total(steps, Side::Buy, |_| true) || -n > total(steps, Side::Sell, |_| true)
}

/// The least and the greatest clearing price, every price being tried from
/// below and from above.
pub fn scan(steps: &[Step], n: i64) -> Option<(u32, u32)> {
    let low = (LOWEST_PRICE..=HIGHEST_PRICE).find(|&price| clears(steps, n, price))?;
    let high = (LOWEST_PRICE..=HIGHEST_PRICE).rev().find(|&price| clears(steps, n, price))?;
    Some((low, high))
}

/// The same as [`scan`], faster.
///
/// Between two neighbouring order prices no total changes, so the prices there
/// clear all or none: an end is at an order price, next to one, or at 1 or
/// 300000.
pub fn candidates(steps: &[Step], n: i64) -> Option<(u32, u32)> {
    let mut prices = vec![LOWEST_PRICE, HIGHEST_PRICE];
    for step in steps {
        prices.extend([step.price - 1, step.price, step.price + 1]);
    }
    prices.sort_unstable();
    prices.dedup();
    prices.retain(|&price| {
        (LOWEST_PRICE..=HIGHEST_PRICE).contains(&price) && clears(steps, n, price)
    });
    Some((*prices.first()?, *prices.last()?))
}

/// Whether a price clears the hour.
pub fn clears(steps: &[Step], n: i64, price: u32) -> bool {
    let buys_above = total(steps, Side::Buy, |order| order > price);
    let buys_from = total(steps, Side::Buy, |order| order >= price);
    let sells_below = total(steps, Side::Sell, |order| order < price);
    let sells_to = total(steps, Side::Sell, |order| order <= price);
    buys_above <= sells_to + n && buys_from >= sells_below + n
}

/// The executed quantity of each step of an hour at its price.
pub fn executed(steps: &[Step], n: i64, price: u32) -> Vec<i64> {
    executed_by(fair_shares, steps, n, price)
}

/// The same with the steps at the price sharing by a rule.
pub(super) fn executed_by(rule: SharingRule, steps: &[Step], n: i64, price: u32) -> Vec<i64> {
    let buys_above = total(steps, Side::Buy, |order| order > price);
    let buys_held = total(steps, Side::Buy, |order| order == price);
    let sells_below = total(steps, Side::Sell, |order| order < price);
    let sells_to = total(steps, Side::Sell, |order| order <= price);
    // Buys at the price: what they hold, or what the sells and N allow.
    let buys = buys_held.min(sells_to + n - buys_above);
    // Sells at the price: what then balances the hour.
    let sells = buys_above + buys - n - sells_below;
    let in_full = |step: &Step| match step.side {
        Side::Buy => step.price > price,
        Side::Sell => step.price < price,
    };
    let own = |step: &Step| if in_full(step) { i64::from(step.quantity) } else { 0 };
    let mut quantities: Vec<i64> = steps.iter().map(own).collect();
    for (side, amount) in [(Side::Buy, buys), (Side::Sell, sells)] {
        let places = (0..steps.len()).filter(|&place| {
            let step = &steps[place];
            step.side == side && step.price == price
        });
        let places: Vec<usize> = places.collect();
        let at_price: Vec<Step> = places.iter().map(|&place| steps[place]).collect();
        for (place, share) in places.into_iter().zip(rule(&at_price, amount)) {
            quantities[place] = share;
        }
    }
    quantities
}

/// The quantity of the steps of a side whose price is wanted.
fn total(steps: &[Step], side: Side, wanted: impl Fn(u32) -> bool) -> i64 {
    let counted = steps.iter().filter(|step| step.side == side && wanted(step.price));
    counted.map(|step| i64::from(step.quantity)).sum()
}
