//! Books full of ties: hours with the same steps, and blocks at the same price whose
//! quantities come to the same in many ways, so that many sets are as good as each other.
//! What the best of them loses at the search's own prices is mostly far above its first
//! limits: the blocks seldom fill a step, or no two sets of them do so alike.
//!
//! The functions take the hours of the day and the edition first, as those of `days`.

use super::builder::{hour_bits, BlockOrder, Orders, StepOrder};
use super::dice::Dice;
use super::links::link_blocks;
use super::random::placed;
use crate::paper::{Side, CHANGED_HOUR};

/// A random book of a day and an edition, of 4 to 10 blocks; its records stand in any order.
pub fn tied_book_on(day: u32, edition: u32, seed: u64) -> Vec<u8> {
    let mut dice = dice_of(seed);
    let orders = tied_orders_on(day, edition, &mut dice);
    placed(&orders, &mut dice)
}

/// The orders of such a book. From edition 3 on half of them have links.
pub fn tied_orders_on(day: u32, edition: u32, dice: &mut Dice) -> Orders {
    let mut orders = Orders::new().of_edition(edition).on_day_of(day);
    let market = Market::of(day, edition, dice);
    add_blocks(&mut orders, &market, dice);
    let room = room_of(&orders, &market, dice);
    for &hour in &market.hours {
        add_steps(&mut orders, hour, room, &market, dice);
    }
    if dice.once_in(2) {
        link_blocks(&mut orders, dice);
    }
    orders
}

/// Other books than those of the same seed elsewhere.
fn dice_of(seed: u64) -> Dice {
    Dice::new(seed ^ 0x7469_6564_0000_0000)
}

/// What all orders of a book have in common.
struct Market {
    hours: Vec<u32>,
    /// The side of most blocks; the steps are of the other one.
    side: Side,
    /// The price of most blocks.
    level: u32,
    /// By how much the first step of an hour is better than that.
    better: u32,
    /// The least quantity of a block.
    unit: u32,
    /// The quantities of the blocks.
    quantities: Vec<u32>,
}

impl Market {
    fn of(day: u32, edition: u32, dice: &mut Dice) -> Market {
        let unit = if edition == 1 { dice.pick(&[8, 10, 16]) } else { dice.pick(&[10, 25, 80]) };
        let quantities = match dice.below(6) {
            0 => vec![unit],
            1 => vec![unit, 2 * unit],
            2 | 3 => vec![unit, 2 * unit, 3 * unit],
            4 => vec![unit, unit, unit, 2 * unit],
            // Few sets of these come to the same.
            _ => (0..6).map(|_| dice.between(unit, 3 * unit)).collect(),
        };
        Market {
            hours: used_hours(day, dice),
            side: dice.pick(&[Side::Buy, Side::Sell]),
            level: dice.pick(&[40_000, 100_000, 200_000]),
            better: dice.pick(&[3_000, 5_000, 20_000]),
            unit,
            quantities,
        }
    }
}

/// Two to four hours of the day, hour 3 often among them.
fn used_hours(day: u32, dice: &mut Dice) -> Vec<u32> {
    let mut hours = dice.pick(&[[2, 3, 4, 5], [3, 4, 20, 24], [1, 2, 9, 3]]).to_vec();
    hours.retain(|&hour| (day, hour) != (23, CHANGED_HOUR));
    hours.truncate(dice.between(2, 4) as usize);
    hours
}

/// What the better step of each hour holds: a part of what the blocks trade in an hour, and
/// mostly not what a number of them fills.
fn room_of(orders: &Orders, market: &Market, dice: &mut Dice) -> u32 {
    let traded = |block: &BlockOrder| block.quantity * block.hours.count_ones();
    let in_an_hour = orders.blocks.iter().map(traded).sum::<u32>() / market.hours.len() as u32;
    let units = in_an_hour * dice.between(1, 3) / 4 / market.unit;
    let rest = dice.pick(&[0, 1, market.unit / 2, market.unit / 2, market.unit - 1]);
    market.unit * units.max(1) + rest
}

/// The steps that an hour's blocks trade with: one at a better price than theirs, and mostly
/// one at a worse price that holds more than all of them, so that every set clears.
fn add_steps(orders: &mut Orders, hour: u32, room: u32, market: &Market, dice: &mut Dice) {
    let (side, better, worse) = match market.side {
        Side::Sell => (Side::Buy, market.level + market.better, market.level / 2),
        Side::Buy => (Side::Sell, market.level - market.better, market.level * 5 / 4),
    };
    let mut push = |price: u32, quantity: u32| {
        let number = orders.steps.len() as u32 + 1;
        orders.steps.push(StepOrder { number, side, hour, price, quantity, portfolio: 1 });
    };
    push(better, room);
    if !dice.once_in(8) {
        push(worse, 9_000);
    }
}

fn add_blocks(orders: &mut Orders, market: &Market, dice: &mut Dice) {
    let count = dice.pick(&[4, 5, 6, 6, 6, 7, 7, 7, 8]) + if dice.once_in(30) { 2 } else { 0 };
    // In most books all blocks are of one side and at one price.
    let (of_both_sides, of_two_prices) = (dice.once_in(4), dice.once_in(4));
    for number in 1..=count {
        let is_other = of_both_sides && dice.once_in(3);
        orders.blocks.push(BlockOrder {
            number,
            side: if is_other { opposite(market.side) } else { market.side },
            hours: block_hours(&market.hours, dice),
            price: market.level + u32::from(of_two_prices && dice.once_in(3)),
            quantity: dice.pick(&market.quantities),
            portfolio: 3 + number / 5,
        });
    }
}

fn opposite(side: Side) -> Side {
    match side {
        Side::Buy => Side::Sell,
        Side::Sell => Side::Buy,
    }
}

/// Any two of the hours, or all of them.
fn block_hours(hours: &[u32], dice: &mut Dice) -> u32 {
    if dice.once_in(3) {
        return hour_bits(hours);
    }
    let mut bits = 0u32;
    while bits.count_ones() < 2 {
        bits = hour_bits(&[dice.pick(hours), dice.pick(hours)]);
    }
    bits
}
