//! Books with large groups of steps at one price, mostly on both sides at once, so that much
//! is shared: with remainders of many kinds, many of them equal, and with none.

use super::builder::{hour_bits, BlockOrder, Orders, StepOrder};
use super::dice::Dice;
use super::links::link_blocks;
use super::random::placed;
use crate::paper::{limits, Side, CHANGED_HOUR};

/// A random book of a day and an edition whose hours have one price at which many steps
/// stand; its records stand in any order. It has few blocks, so that all sets can be listed.
pub fn shared_book_on(day: u32, edition: u32, seed: u64) -> Vec<u8> {
    let mut dice = Dice::new(seed ^ 0x7368_6172_6573_0000);
    let orders = shared_orders_on(day, edition, &mut dice);
    placed(&orders, &mut dice)
}

/// The orders of such a book.
pub fn shared_orders_on(day: u32, edition: u32, dice: &mut Dice) -> Orders {
    let mut orders = Orders::new().of_edition(edition).on_day_of(day);
    let hours = crowded_hours(day, dice);
    let price = dice.pick(&[1, 2, 3_000, 5_000, 299_999, 300_000]);
    for &hour in &hours {
        add_group(&mut orders, hour, price, dice);
    }
    // The steps of the sides, and of the hours, mix along the chain.
    dice.shuffle(&mut orders.steps);
    add_blocks(&mut orders, &hours, price, dice);
    number(&mut orders, dice);
    link_blocks(&mut orders, dice);
    orders
}

/// Two hours that every day has, and mostly hour 3 where the day has it.
fn crowded_hours(day: u32, dice: &mut Dice) -> Vec<u32> {
    let first = dice.between(4, 23);
    let mut hours = vec![first, dice.between(first + 1, 24)];
    if day != 23 && !dice.once_in(3) {
        hours.push(CHANGED_HOUR);
    }
    hours
}

/// Steps of both sides at a price, and now and then some at a better or a worse one.
fn add_group(orders: &mut Orders, hour: u32, price: u32, dice: &mut Dice) {
    let most = dice.pick(&[3, 8, 30, 120]);
    let quantities = group_quantities(dice);
    for side in [Side::Buy, Side::Sell] {
        let least = if dice.once_in(8) { 0 } else { 1 };
        for _ in 0..dice.between(least, most) {
            push(orders, side, hour, price, dice.pick(&quantities));
        }
        if dice.once_in(3) {
            let other = (price + dice.between(0, 2)).clamp(2, 300_001) - 1;
            push(orders, side, hour, other, dice.between(1, 50));
        }
    }
}

/// What the quantities of a group are drawn from: alike, with common divisors, or not.
fn group_quantities(dice: &mut Dice) -> Vec<u32> {
    match dice.below(8) {
        0 => vec![1],
        1 => vec![dice.between(1, 99_999)],
        2 => vec![1, 2, 3],
        3 => vec![10, 20, 50],
        4 => vec![1, 99_999],
        5 => vec![60, 60, 40],
        6 => (0..40).map(|_| dice.between(1, 200)).collect(),
        _ => (0..200).map(|_| dice.between(1, 99_999)).collect(),
    }
}

fn push(orders: &mut Orders, side: Side, hour: u32, price: u32, quantity: u32) {
    let portfolio = 1 + orders.steps.len() as u32 % 250;
    orders.steps.push(StepOrder { number: 0, side, hour, price, quantity, portfolio });
}

/// Up to three blocks over the crowded hours, with prices that they mostly keep, so that
/// what is left to share is not what the steps alone leave.
fn add_blocks(orders: &mut Orders, hours: &[u32], price: u32, dice: &mut Dice) {
    let most = limits(orders.edition).expect("an edition").block_quantity;
    for number in 1..=dice.below(4) as u32 {
        // A day of 23 hours has no hour 3, which a block may name all the same.
        let beside = if orders.day == 23 { hour_bits(&[CHANGED_HOUR]) } else { 0 };
        let hours = hour_bits(hours) | beside;
        let side = dice.pick(&[Side::Buy, Side::Sell]);
        let price = if dice.once_in(3) { price } else { kept_by(side) };
        let quantity = dice.between(1, most);
        orders.blocks.push(BlockOrder { number, side, hours, price, quantity, portfolio: 3 });
    }
}

/// A price that a block of a side keeps whatever the hours pay.
fn kept_by(side: Side) -> u32 {
    match side {
        Side::Buy => 300_000,
        Side::Sell => 1,
    }
}

/// Numbers that rise, with gaps or without.
fn number(orders: &mut Orders, dice: &mut Dice) {
    let most_gap = dice.pick(&[1, 7]);
    let mut number = 0;
    for step in &mut orders.steps {
        number += dice.between(1, most_gap);
        step.number = number;
    }
}
