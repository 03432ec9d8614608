//! Document 02, P5: how a side's amount at the price is shared among its steps.

use super::read::Step;
use std::cmp::Reverse;

/// What each of some steps of one side and price gets of an amount; no amount is more than
/// they hold together.
pub type SharingRule = fn(&[Step], i64) -> Vec<i64>;

/// The shares of document 02.
///
/// "Each step gets its quantity times the amount, divided by the side's total at that price,
/// rounded down. The leftover tenths go one each to the largest remainders, equal ones to the
/// lower number. If the total is 0 nobody gets anything."
pub fn fair_shares(steps: &[Step], amount: i64) -> Vec<i64> {
    let total: i64 = steps.iter().map(|step| i64::from(step.quantity)).sum();
    if total == 0 {
        return vec![0; steps.len()];
    }
    // At most 99,999 times 2,047 times 99,999: it fits.
    let products: Vec<i64> = steps.iter().map(|step| i64::from(step.quantity) * amount).collect();
    let mut shares: Vec<i64> = products.iter().map(|product| product / total).collect();
    let leftover = amount - shares.iter().sum::<i64>();
    let mut ranks: Vec<usize> = (0..steps.len()).collect();
    ranks.sort_by_key(|&place| (Reverse(products[place] % total), steps[place].number));
    for (_, &place) in (0..leftover).zip(&ranks) {
        shares[place] += 1;
    }
    shares
}
