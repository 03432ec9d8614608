//! The worst families of books that are known. All blocks of a book have about the same limit,
//! so that very many sets lose nearly the same, and which of them are lawful shows late.
//!
//! Hours are of one class where no block has one of them without the other: with so many
//! classes, to find the best set is a subset sum in so many dimensions.
//!
//! Members choose the numbers of their blocks: here those that trade least come first. A search
//! that decided them in that order would learn least of the rest.

use super::builder::Orders;
use super::dice::Dice;
use super::families::{push_block, push_step, Family, ALL_HOURS};
use crate::paper::Side;

/// The worst families that are known, with the most blocks there may be.
pub const WORST_FAMILIES: [Family; 11] = [
    Family::new("one class, traps", 32, QUICK, |seed, blocks| traps(1, ANY, seed, blocks)),
    Family::new("two classes, traps", 32, QUICK, |seed, blocks| traps(2, ANY, seed, blocks)),
    Family::new("twelve classes, traps", 32, QUICK, |seed, blocks| traps(12, LARGE, seed, blocks)),
    Family::new("odd hours, traps", 32, QUICK, |seed, blocks| traps(24, LARGE, seed, blocks)),
    Family::new("one class, cliffs", 32, QUICK, |seed, blocks| cliffs(1, ANY, seed, blocks)),
    Family::new("two classes, cliffs", 32, QUICK, |seed, blocks| cliffs(2, ANY, seed, blocks)),
    Family::new("twelve classes, cliffs", 32, QUICK, |seed, blocks| {
        cliffs(12, LARGE, seed, blocks)
    }),
    Family::new("odd hours, cliffs", 32, QUICK, |seed, blocks| cliffs(24, LARGE, seed, blocks)),
    Family::new("two classes, edition 2", 32, QUICK, |seed, blocks| cliffs(2, WIDE, seed, blocks)),
    Family::new("few levels", 32, QUICK, few_levels),
    Family::new("tied sums", 32, QUICK, |seed, blocks| cliffs(3, TENS, seed, blocks)),
];

/// With so many blocks each of them clears in a moment.
const QUICK: usize = 16;

/// What blocks trade: multiples of a unit.
#[derive(Clone, Copy)]
struct Quantities {
    edition: u32,
    unit: u32,
    least: u32,
    most: u32,
}

const ANY: Quantities = Quantities { edition: 1, unit: 1, least: 5, most: 50 };
const LARGE: Quantities = Quantities { edition: 1, unit: 1, least: 40, most: 50 };
const TENS: Quantities = Quantities { edition: 1, unit: 10, least: 1, most: 5 };
const WIDE: Quantities = Quantities { edition: 2, unit: 1, least: 25, most: 250 };

/// The limit of the sell blocks of traps and cliffs.
const LIMIT: u32 = 4_000;

/// More than all blocks of an hour trade.
const PLENTY: u32 = 10_000;

/// Each hour buys a little more than half of what the blocks sell there, at a tick above their
/// limit, and the rest at the least price: a set that fills an hour to the brim loses nothing
/// and misses its limit.
fn traps(classes: u32, quantities: Quantities, seed: u64, blocks: usize) -> Vec<u8> {
    let mut orders = sell_blocks(classes, quantities, seed, blocks);
    for hour in 1..=24 {
        let half = 1 + offered_in(&orders, hour) / 2;
        push_step(&mut orders, Side::Buy, hour, LIMIT + 1, half);
        push_step(&mut orders, Side::Buy, hour, 1, PLENTY);
    }
    orders.book()
}

/// Each hour buys a little more than half of what the blocks sell there far above their limit,
/// some more just above it, and the rest far below.
fn cliffs(classes: u32, quantities: Quantities, seed: u64, blocks: usize) -> Vec<u8> {
    let mut orders = sell_blocks(classes, quantities, seed, blocks);
    for hour in 1..=24 {
        let half = 1 + offered_in(&orders, hour) / 2;
        push_step(&mut orders, Side::Buy, hour, LIMIT + 1_000, half);
        push_step(&mut orders, Side::Buy, hour, LIMIT + 10, quantities.unit * quantities.most);
        push_step(&mut orders, Side::Buy, hour, 100, PLENTY);
    }
    orders.book()
}

/// Buy and sell blocks over all hours with limits within a tick of each other, far from the
/// level below and the one above: at no price do blocks of both sides keep them.
fn few_levels(seed: u64, blocks: usize) -> Vec<u8> {
    let mut dice = Dice::new(seed);
    let mut orders = Orders::new();
    let limit = dice.between(3_000, 5_000);
    let (below, quantity) = (limit - dice.between(100, 400), dice.between(50, 100));
    for hour in 1..=24 {
        push_step(&mut orders, Side::Buy, hour, below, quantity);
        push_step(&mut orders, Side::Buy, hour, 1, PLENTY);
        push_step(&mut orders, Side::Sell, hour, 20_000, PLENTY);
    }
    for (hours, quantity) in rising(1, ANY, &mut dice, blocks) {
        let side = dice.pick(&[Side::Buy, Side::Sell]);
        push_block(&mut orders, side, hours, dice.between(limit - 1, limit + 1), quantity);
    }
    orders.book()
}

/// Sell blocks at one limit, over hours in so many classes.
fn sell_blocks(classes: u32, quantities: Quantities, seed: u64, blocks: usize) -> Orders {
    let mut orders = Orders::new().of_edition(quantities.edition);
    for (hours, quantity) in rising(classes, quantities, &mut Dice::new(seed), blocks) {
        push_block(&mut orders, Side::Sell, hours, LIMIT, quantity);
    }
    orders
}

/// The hours and the quantities of blocks, those that trade least first.
fn rising(classes: u32, quantities: Quantities, dice: &mut Dice, blocks: usize) -> Vec<(u32, u32)> {
    let Quantities { unit, least, most, .. } = quantities;
    let mut all: Vec<(u32, u32)> = (0..blocks)
        .map(|_| (some_classes(classes, dice), unit * dice.between(least, most)))
        .collect();
    all.sort_by_key(|&(hours, quantity)| quantity * hours.count_ones());
    all
}

/// The hours of some of so many classes, each as likely as not, and two hours at least.
fn some_classes(classes: u32, dice: &mut Dice) -> u32 {
    let size = 24 / classes;
    let class = ALL_HOURS >> (24 - size);
    loop {
        let some = (0..classes).filter(|_| dice.once_in(2));
        let hours = some.fold(0, |hours, place| hours | class << (size * place));
        if hours.count_ones() >= 2 {
            return hours;
        }
    }
}

/// What the blocks offer in an hour together.
fn offered_in(orders: &Orders, hour: u32) -> u32 {
    orders.blocks.iter().map(|block| ((block.hours >> (hour - 1)) & 1) * block.quantity).sum()
}
