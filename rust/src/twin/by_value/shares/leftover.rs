// Written by `twin_source` from crates/shares/src/leftover.rt.
// The tenths of a side's amount that are left over when the quotients are rounded down: one each to the largest remainders, equal ones to the lower
// number. A cut among the remainders, found by bisection, says who gets one.

use crate::twin::by_value::shares::Portion;
use crate::twin::by_value::orders::HourSteps;

// What a step of one side, the buys or else the sells, holds at the price. `buys` is a bool and not records' Side, since `holding` of the specs goes by Bool.
fn held_at(buys: bool, price: u32, side: u8, limit: u32, quantity: u32) -> u32
{
    if limit == price {
        if side == 0 {
            return if buys { quantity } else { 0 };
        }
        return if buys { 0 } else { quantity };
    }
    0
}

// The remainders of a side's steps at the price into rests; the others hold nothing there, and their remainders are 0.
fn put_rests(buys: bool, steps: &HourSteps, price: u32, portion: Portion, rests: &mut [u32])
{
    for i in 0..steps.sides.len() {
        let own = held_at(
            buys,
            price,
            steps.sides[i],
            steps.prices[i],
            steps.quantities[i],
        );
        rests[i] = portion.rest_of(own);
    }
}

// How many are above a number.
fn above(rests: &[u32], x: u32) -> u64
{
    rests.iter().filter(|r| x < **r).count() as u64
}

// The cut for so many leftover tenths: no more remainders lie above it, and no fewer at or above it. By bisection from 0 to the total.
fn cut_for(rests: &[u32], total: u32, left: u64) -> u32
{
    // a bisection: no count of turns
    let mut low: u32 = 0;
    let mut high: u32 = total;
    while low < high {
        let mid = low + (high - low) / 2;
        if above(rests, mid) <= left {
            high = mid;
        } else {
            low = mid + 1;
        }
    }
    low
}

// One more to each remainder above the cut, and to the first `most` at it.
fn give(rests: &[u32], cut: u32, most: u64, out: &mut [u32])
{
    let mut room = most;
    for i in 0..rests.len() {
        let r = rests[i];
        let at = (r == cut) & (0 < room);
        out[i] += u32::from((cut < r) | at);
        room -= u64::from(at);
    }
}

// The leftover tenths of a side to its steps at the price; rests is lent to work in.
pub fn give_leftover(
    buys: bool,
    steps: &HourSteps,
    price: u32,
    portion: Portion,
    left: u64,
    out: &mut [u32],
    rests: &mut [u32],
)
{
    if left == 0 {
        return;
    }
    put_rests(buys, steps, price, portion, rests);
    let cut = cut_for(rests, portion.held as u32, left);
    let most = left - above(rests, cut);
    give(rests, cut, most, out);
}
