// Written by `twin_source` from crates/pricing/src/hour.rt.
// The price of an hour from its columns and N: the totals of its steps at a price, and the two ends of the clearing prices by bisection.

use crate::twin::by_value::pricing::{BIAS, HourPrice};
use crate::twin::by_value::fields::MAX_PRICE;
use crate::twin::by_value::orders::HourSteps;

// What steps buy strictly above one price, and sell at or below another, or the same.
#[derive(Clone, Copy)]
pub struct Totals {
    pub over: u32,
    pub to: u32,
    pub above: u64,
    pub upto: u64,
}

impl Totals {
    // One order more; with no branch, which would be hard to foretell.
    fn add(mut self, side: u8, price: u32, quantity: u32) -> Totals
    {
        let buys = side == 0;
        let wide = u64::from(quantity);
        self.above += u64::from(buys & (self.over < price)) * wide;
        self.upto += u64::from(!buys & (price <= self.to)) * wide;
        self
    }
}

// The totals of all steps of an hour, one order at a time: what they buy over one price, and what they sell up to another.
pub fn totals_between(steps: &HourSteps, over: u32, to: u32) -> Totals
{
    let mut totals = Totals {
        over,
        to,
        above: 0,
        upto: 0,
    };
    for i in 0..steps.sides.len() {
        totals = totals.add(steps.sides[i], steps.prices[i], steps.quantities[i]);
    }
    totals
}

// The totals at one price.
pub fn totals_at(steps: &HourSteps, price: u32) -> Totals
{
    totals_between(steps, price, price)
}

// The least price at which the steps and N cover a margin, by bisection; the highest price where they do at none below it.
pub fn least_covered(steps: &HourSteps, net: u32, margin: u32) -> u32
{
    let mut low = 1;
    let mut high = MAX_PRICE;
    while low < high {
        let middle = (low + high) / 2;
        let totals = totals_at(steps, middle);
        if totals.above + BIAS + u64::from(margin) <= totals.upto + u64::from(net) {
            high = middle;
        } else {
            low = middle + 1;
        }
    }
    low
}

// The answer of an hour: none where N exceeds all buys together, or -N all sells; else its two ends and the middle.
pub fn answer_of(steps: &HourSteps, net: u32) -> Option<HourPrice>
{
    let lowest = totals_at(steps, 0);
    let highest = totals_at(steps, MAX_PRICE);
    if lowest.above + BIAS < u64::from(net) {
        return None;
    }
    if highest.upto + u64::from(net) < BIAS {
        return None;
    }
    let low = least_covered(steps, net, 0);
    let high = least_covered(steps, net, 1);
    Some(HourPrice {
        low,
        high,
        price: (low + high) / 2,
    })
}
