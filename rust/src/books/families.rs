//! Books in families for the benchmark, each settled by its seed.

use super::builder::{hour_bits, BlockOrder, Orders, StepOrder};
use super::dice::Dice;
use super::links::Shape;
use crate::paper::{self, Side};

/// About the price of each hour of a full day.
const LEVELS: [u32; 24] = [
    4300, 3700, 3300, 3200, 3300, 3500, 4600, 5000, 5600, 6000, 5500, 5400, 4900, 4700, 4800, 4900,
    5600, 5400, 6000, 6400, 5800, 5600, 5200, 4000,
];

/// A family of books.
pub struct Family {
    pub name: &'static str,
    /// The blocks of its books in the benchmark.
    pub usual_blocks: usize,
    /// With no more blocks than these a book of any seed clears in a moment; with
    /// more it may take minutes.
    pub quick_blocks: usize,
    /// The book of a seed with so many blocks.
    pub book: fn(u64, usize) -> Vec<u8>,
}

impl Family {
    pub(super) const fn new(
        name: &'static str,
        usual_blocks: usize,
        quick_blocks: usize,
        book: fn(u64, usize) -> Vec<u8>,
    ) -> Family {
        Family { name, usual_blocks, quick_blocks, book }
    }
}

/// The families of the benchmark.
pub const FAMILIES: [Family; 22] = [
    Family::new("full days", 32, 32, |seed, blocks| full_day(seed, 2015, blocks)),
    Family::new("full days, odd hours", 32, 32, odd_day),
    Family::new("identical blocks", 30, 32, identical_blocks),
    Family::new("thin days", 32, 32, thin_day),
    Family::new("blocks only", 32, 32, blocks_only),
    Family::new("ties", 18, 24, ties),
    Family::new("cliffs", 18, 22, cliffs),
    Family::new("edition 2, large", 32, 32, ed2),
    Family::new("edition 2, widest", 32, 32, ed2_widest),
    Family::new("edition 2, small", 32, 32, ed2_small),
    Family::new("days of 25 hours", 32, 32, |seed, blocks| changed_day(25, seed, blocks)),
    Family::new("days of 23 hours", 32, 32, |seed, blocks| changed_day(23, seed, blocks)),
    Family::new("linked by 2", 32, 32, |seed, blocks| linked_by(2, seed, blocks)),
    Family::new("linked by 4", 32, 32, |seed, blocks| linked_by(4, seed, blocks)),
    Family::new("linked by 8", 32, 32, |seed, blocks| linked_by(8, seed, blocks)),
    Family::new("the same, not linked", 32, 32, |seed, blocks| linked_day(seed, blocks, None)),
    Family::new("one price", 32, 32, |seed, blocks| crowded_hour(seed, blocks, |_| CROWDED_PRICE)),
    Family::new("distinct prices", 32, 32, |seed, blocks| crowded_hour(seed, blocks, |it| it)),
    Family::new("edition 3, full days", 32, 32, |seed, blocks| full_day_of(3, seed, blocks)),
    Family::new("edition 4, full days", 32, 32, |seed, blocks| full_day_of(4, seed, blocks)),
    Family::new("edition 4, thin days", 32, 32, |seed, blocks| thin_day_of(4, seed, blocks)),
    Family::new("edition 4, blocks alone", 32, 32, blocks_alone),
];

/// A day with deep curves in every hour and ordinary blocks, most of which have
/// prices within 2 % of what their hours pay.
pub fn full_day(seed: u64, steps: usize, blocks: usize) -> Vec<u8> {
    let mut dice = Dice::new(seed);
    let mut orders = deep_steps(&mut dice, steps);
    add_ordinary_blocks(&mut orders, &mut dice, blocks, usual_hours, 20);
    orders.book()
}

fn odd_day(seed: u64, blocks: usize) -> Vec<u8> {
    let mut dice = Dice::new(seed);
    let mut orders = deep_steps(&mut dice, 2015);
    add_ordinary_blocks(&mut orders, &mut dice, blocks, odd_hours, 20);
    orders.book()
}

/// Groups of five blocks that are alike, at a few prices; the last may have fewer.
fn identical_blocks(seed: u64, blocks: usize) -> Vec<u8> {
    let mut dice = Dice::new(seed);
    let mut orders = deep_steps(&mut dice, 2015);
    let prices = empty_prices(&orders);
    while orders.blocks.len() < blocks {
        let group = orders.blocks.len() as u32 / 5;
        let (side, hours) = (dice.pick(&[Side::Buy, Side::Sell]), usual_hours(&mut dice));
        let price = near_average(&prices, hours, 5, &mut dice);
        for _ in 0..5.min(blocks - orders.blocks.len()) {
            push_block(&mut orders, side, hours, price, 20 + 5 * group);
        }
    }
    orders.book()
}

/// A full day of an edition; of a seed the same orders in each.
pub fn full_day_of(edition: u32, seed: u64, blocks: usize) -> Vec<u8> {
    let mut dice = Dice::new(seed);
    let mut orders = deep_steps(&mut dice, 2015).of_edition(edition);
    add_ordinary_blocks(&mut orders, &mut dice, blocks, usual_hours, 20);
    orders.book()
}

/// Four steps an hour, so that a block moves the price far.
fn thin_day(seed: u64, blocks: usize) -> Vec<u8> {
    thin_day_of(1, seed, blocks)
}

fn thin_day_of(edition: u32, seed: u64, blocks: usize) -> Vec<u8> {
    let mut dice = Dice::new(seed);
    let mut orders = Orders::new().of_edition(edition);
    for (hour, level) in (1..).zip(LEVELS) {
        for side in [Side::Sell, Side::Buy, Side::Sell, Side::Buy] {
            let price = dice.between(level * 6 / 10, level * 14 / 10);
            push_step(&mut orders, side, hour, price, dice.between(20, 400));
        }
    }
    add_ordinary_blocks(&mut orders, &mut dice, blocks, usual_hours, 300);
    orders.book()
}

/// No steps: blocks balance among themselves, or nothing is traded.
fn blocks_only(seed: u64, blocks: usize) -> Vec<u8> {
    let mut dice = Dice::new(seed);
    let mut orders = Orders::new();
    let halves = [hour_bits(&[1, 2, 3, 4]), hour_bits(&[5, 6, 7, 8])];
    let hours = [halves[0], halves[1], halves[0] | halves[1]];
    for _ in 0..blocks {
        let side = dice.pick(&[Side::Buy, Side::Sell]);
        let price = match side {
            Side::Buy => dice.between(150_000, 250_000),
            Side::Sell => dice.between(50_000, 160_000),
        };
        push_block(&mut orders, side, dice.pick(&hours), price, 10 * dice.between(1, 5));
    }
    orders.book()
}

/// No steps, in edition 4: blocks at ordinary prices that trade with each other, which the
/// middle price of an hour without steps would keep out.
fn blocks_alone(seed: u64, blocks: usize) -> Vec<u8> {
    let mut dice = Dice::new(seed);
    let mut orders = Orders::new().of_edition(4);
    for _ in 0..blocks {
        let side = dice.pick(&[Side::Buy, Side::Sell]);
        let price = match side {
            Side::Buy => dice.between(4_500, 6_500),
            Side::Sell => dice.between(3_500, 5_500),
        };
        let hours = standard_hours(&mut dice);
        push_block(&mut orders, side, hours, price, 10 * dice.between(1, 5));
    }
    orders.book()
}

/// The same curves in every hour, and blocks that all have the same price.
fn ties(seed: u64, blocks: usize) -> Vec<u8> {
    let mut dice = Dice::new(seed);
    let mut orders = Orders::new();
    for hour in 1..=24 {
        for price in 4980..5020 {
            let side = if price % 2 == 0 { Side::Sell } else { Side::Buy };
            push_step(&mut orders, side, hour, price, 40);
        }
    }
    for _ in 0..blocks {
        let side = dice.pick(&[Side::Buy, Side::Sell]);
        let hours = standard_hours(&mut dice);
        push_block(&mut orders, side, hours, 5000, dice.between(10, 50));
    }
    orders.book()
}

/// Sell blocks that all gain until an hour's price falls far below their limit.
fn cliffs(seed: u64, blocks: usize) -> Vec<u8> {
    let mut dice = Dice::new(seed);
    let mut orders = Orders::new();
    let mut offered = [0; 24];
    for _ in 0..blocks {
        let hours = run_of_hours(&mut dice, 3, 12);
        let quantity = dice.between(10, 50);
        for (h, offered) in offered.iter_mut().enumerate() {
            *offered += ((hours >> h) & 1) * quantity;
        }
        push_block(&mut orders, Side::Sell, hours, 4000, quantity);
    }
    for (hour, offered) in (1..).zip(offered) {
        push_step(&mut orders, Side::Buy, hour, 5000, 1 + offered / 2);
        push_step(&mut orders, Side::Buy, hour, 4010, 40);
        push_step(&mut orders, Side::Buy, hour, 100, 2000);
    }
    orders.book()
}

/// A full day of edition 2 with blocks of the greatest quantity.
fn ed2(seed: u64, blocks: usize) -> Vec<u8> {
    ed2_day(seed, blocks, usual_hours)
}

/// The same with blocks of all 24 hours, so that with 32 of them every hour's blocks trade
/// 8,000 in all: no day has wider hours.
fn ed2_widest(seed: u64, blocks: usize) -> Vec<u8> {
    ed2_day(seed, blocks, |_| ALL_HOURS)
}

fn ed2_day(seed: u64, blocks: usize, hours_of: fn(&mut Dice) -> u32) -> Vec<u8> {
    let mut dice = Dice::new(seed);
    let mut orders = deep_steps(&mut dice, 2015).of_edition(2);
    add_ordinary_blocks(&mut orders, &mut dice, blocks, hours_of, 20);
    orders.blocks.iter_mut().for_each(|block| block.quantity = 250);
    orders.book()
}

/// What an hour's blocks trade at most in all in edition 1: 32 of 50.
const MOST_IN_EDITION_1: u32 = 1600;

/// A full day of edition 2 whose blocks trade no more than 1,600 in all in any hour, as
/// those of edition 1 do, though most of them have more than 50.
fn ed2_small(seed: u64, blocks: usize) -> Vec<u8> {
    let mut dice = Dice::new(seed);
    let mut orders = deep_steps(&mut dice, 2015).of_edition(2);
    add_ordinary_blocks(&mut orders, &mut dice, blocks, usual_hours, 20);
    for block in &mut orders.blocks {
        block.quantity *= 5;
    }
    let most = (0..24).map(|h| traded_in(&orders, h)).max().unwrap_or(0);
    for block in &mut orders.blocks {
        block.quantity = block.quantity * MOST_IN_EDITION_1 / most.max(MOST_IN_EDITION_1);
    }
    orders.book()
}

/// A full day of so many hours. On one of 23 the steps of hour 3 are in hour 4.
fn changed_day(day: u32, seed: u64, blocks: usize) -> Vec<u8> {
    let mut dice = Dice::new(seed);
    let mut orders = deep_steps(&mut dice, 2015).on_day_of(day);
    for step in orders.steps.iter_mut().filter(|step| (day, step.hour) == (23, 3)) {
        step.hour = 4;
    }
    add_ordinary_blocks(&mut orders, &mut dice, blocks, usual_hours, 20);
    orders.book()
}

/// As many steps as leave room for 32 blocks and 31 links.
const STEPS_BESIDE_LINKS: usize = 1984;

/// A full day of ordinary blocks linked in a shape; without one it is of edition 2. The
/// steps and the blocks of a seed are the same whatever the links.
pub fn linked_day(seed: u64, blocks: usize, shape: Option<Shape>) -> Vec<u8> {
    let mut dice = Dice::new(seed);
    let mut orders = deep_steps(&mut dice, STEPS_BESIDE_LINKS).of_edition(2);
    add_ordinary_blocks(&mut orders, &mut dice, blocks, usual_hours, 20);
    if let Some(shape) = shape {
        orders = orders.linked(shape, &mut dice);
    }
    orders.book()
}

fn linked_by(size: usize, seed: u64, blocks: usize) -> Vec<u8> {
    linked_day(seed, blocks, Some(Shape::Families(size)))
}

/// The price of the steps of "one price"; those of "distinct prices" have others around it.
const CROWDED_PRICE: u32 = 5_000;

/// All 2,015 steps in hour 12: 2,014 sells, half of which a buy serves. Each sell has a price
/// of its own, or what is made of it. The blocks trade in hours 12 and 13, each as much, so
/// that as many are taken of either side: in hour 13 there is nobody else.
fn crowded_hour(seed: u64, blocks: usize, price_of: fn(u32) -> u32) -> Vec<u8> {
    let mut dice = Dice::new(seed);
    let mut orders = Orders::new();
    let mut prices: Vec<u32> = (CROWDED_PRICE - 1_007..CROWDED_PRICE + 1_007).collect();
    dice.shuffle(&mut prices);
    for price in prices {
        push_step(&mut orders, Side::Sell, 12, price_of(price), dice.between(1, 97));
    }
    let offered: u32 = orders.steps.iter().map(|step| step.quantity).sum();
    push_step(&mut orders, Side::Buy, 12, price_of(CROWDED_PRICE + 1_007), offered / 2);
    add_ordinary_blocks(&mut orders, &mut dice, blocks, |_| hour_bits(&[12, 13]), 20);
    orders.blocks.iter_mut().for_each(|block| block.quantity = 20);
    orders.book()
}

/// What the blocks with hour h + 1 trade in it, all of them together.
fn traded_in(orders: &Orders, h: usize) -> u32 {
    orders.blocks.iter().map(|block| ((block.hours >> h) & 1) * block.quantity).sum()
}

/// Steps of both sides around the level of each hour, and some at any price.
fn deep_steps(dice: &mut Dice, count: usize) -> Orders {
    let mut orders = Orders::new();
    for index in 0..count {
        let hour = index % 24;
        let level = LEVELS[hour];
        let side = if index / 24 % 2 == 0 { Side::Sell } else { Side::Buy };
        let at_any_price = index / 24 < 2 || (index / 24) % 16 < 2;
        let quantity = if at_any_price { 4 * dice.between(30, 250) } else { dice.between(20, 250) };
        let price = match (at_any_price, side) {
            (true, Side::Buy) => 300_000,
            (true, Side::Sell) => 1,
            _ => {
                (dice.between(level / 3, level * 5 / 3) + dice.between(level / 3, level * 5 / 3))
                    / 2
            }
        };
        push_step(&mut orders, side, hour as u32 + 1, price, quantity);
    }
    orders
}

pub(super) fn push_step(orders: &mut Orders, side: Side, hour: u32, price: u32, quantity: u32) {
    let number = orders.steps.len() as u32 + 1;
    let portfolio = 1 + number % 60;
    orders.steps.push(StepOrder { number, side, hour, price, quantity, portfolio });
}

pub(super) fn push_block(orders: &mut Orders, side: Side, hours: u32, price: u32, quantity: u32) {
    let number = orders.blocks.len() as u32 + 1;
    let limits = paper::limits(orders.edition).expect("an edition");
    let portfolio = 100 + (number - 1) / limits.blocks_of_a_portfolio as u32;
    orders.blocks.push(BlockOrder { number, side, hours, price, quantity, portfolio });
}

/// Blocks of either side with prices near what their hours pay without blocks, within
/// so many thousandths.
fn add_ordinary_blocks(
    orders: &mut Orders,
    dice: &mut Dice,
    count: usize,
    hours_of: fn(&mut Dice) -> u32,
    thousandths: u32,
) {
    let prices = empty_prices(orders);
    for _ in 0..count {
        let side = dice.pick(&[Side::Buy, Side::Sell]);
        let hours = hours_of(dice);
        let price = near_average(&prices, hours, thousandths, dice);
        push_block(orders, side, hours, price, dice.between(10, 50));
    }
}

/// The hours of the day as they pass, each with the price of the steps alone.
fn empty_prices(orders: &Orders) -> Vec<(u32, u32)> {
    let book = paper::read(&orders.book()).expect("the steps are right");
    let prices = paper::outcome(&book, 0).expect("the empty set is lawful").prices;
    book.hours.iter().map(|&hour| (hour, prices[hour as usize - 1])).collect()
}

/// The average price over hours, moved by up to so many thousandths.
fn near_average(prices: &[(u32, u32)], hours: u32, thousandths: u32, dice: &mut Dice) -> u32 {
    let of_hours = prices.iter().filter(|(hour, _)| (hours >> (hour - 1)) & 1 == 1);
    let sum: u32 = of_hours.clone().map(|(_, price)| price).sum();
    let moved = 1000 - thousandths + dice.between(0, 2 * thousandths);
    (sum / of_hours.count() as u32 * moved / 1000).clamp(1, 300_000)
}

pub(super) const ALL_HOURS: u32 = (1 << 24) - 1;

/// All day, by day, by night.
fn standard_hours(dice: &mut Dice) -> u32 {
    let day = 0x000f_ff00;
    dice.pick(&[ALL_HOURS, day, ALL_HOURS & !day])
}

fn usual_hours(dice: &mut Dice) -> u32 {
    if dice.once_in(3) {
        run_of_hours(dice, 3, 8)
    } else {
        standard_hours(dice)
    }
}

/// Hours that follow each other.
fn run_of_hours(dice: &mut Dice, least: u32, most: u32) -> u32 {
    let length = dice.between(least, most);
    ((1 << length) - 1) << dice.between(0, 24 - length)
}

/// Two hours or more, each as likely as not.
fn odd_hours(dice: &mut Dice) -> u32 {
    loop {
        let hours = dice.bits() as u32 & ALL_HOURS;
        if hours.count_ones() >= 2 {
            return hours;
        }
    }
}
