// Written by `twin_source` from crates/pricing/src/execution.rt.
// What is traded in an hour at its price.

use crate::twin::by_value::pricing::hour::totals_between;
use crate::twin::by_value::orders::HourSteps;

// What is traded in an hour at a clearing price, with what the blocks sell and buy.
pub fn traded_at(steps: &HourSteps, sales: u32, buys: u32, price: u32) -> u32
{
    let totals = totals_between(steps, price.saturating_sub(1), price);
    let bought = totals.above + u64::from(buys);
    let sold = totals.upto + u64::from(sales);
    bought.min(sold) as u32
}
