//! Random accepted books: few price levels so that ties are frequent, prices at
//! both ends, empty and one-sided hours, blocks that meet and miss their limits.
//!
//! A function whose name ends with `of` makes books of an edition, 1 to 4; the one
//! without it those of edition 1. All of them are of days of 24 hours; `days` has the
//! others. The books of a seed stay as they are: a test holds them.

use super::builder::{hour_bits, BlockOrder, Orders, StepOrder};
use super::dice::Dice;
use super::links::link_blocks;
use crate::paper::Side;

/// What the orders of one book are drawn from.
struct Market {
    hours: Vec<u32>,
    levels: Vec<u32>,
    step_quantities: Vec<u32>,
    block_quantities: Vec<u32>,
    most_steps_an_hour: u32,
    block_count: usize,
    blocks_of_a_portfolio: usize,
    /// Whether buys tend to the higher levels and sells to the lower ones, and
    /// every hour has both, so that much is traded.
    lively: bool,
}

/// A random book of 0 to 9 blocks; its records stand in any order.
pub fn small_book(seed: u64) -> Vec<u8> {
    small_book_of(1, seed)
}

/// A random book of an edition. Those of edition 2 have 0 to 10 blocks, mostly six or
/// more and mostly of one portfolio, and quantities on both sides of 50 and up to 250.
/// Those of editions 3 and 4 are alike, most of them with links.
pub fn small_book_of(edition: u32, seed: u64) -> Vec<u8> {
    let mut dice = Dice::new(seed);
    let orders = small_orders_of(edition, &mut dice);
    placed(&orders, &mut dice)
}

/// A random book so small that all its contenders can be listed: at most 7
/// steps of at most 3, at most 4 blocks of at most 2.
pub fn tiny_book(seed: u64) -> Vec<u8> {
    tiny_book_of(1, seed)
}

/// A random book of an edition, so small that all its contenders can be listed. Those of
/// edition 2 have six to nine blocks of at most 2, or few steps and blocks of more
/// than 50; those of editions 3 and 4 are alike, most of them with links.
pub fn tiny_book_of(edition: u32, seed: u64) -> Vec<u8> {
    let mut dice = Dice::new(seed);
    let orders = tiny_orders_of(edition, &mut dice);
    placed(&orders, &mut dice)
}

/// The orders of a tiny book of an edition, see [`tiny_book_of`].
pub(super) fn tiny_orders_of(edition: u32, dice: &mut Dice) -> Orders {
    let mut orders = match edition {
        1 => tiny_orders(dice),
        // The lists of the first two are the longest.
        _ => match dice.below(8) {
            0 => three_large_steps(dice),
            1 => two_larger_steps(dice),
            _ => many_tiny_blocks(dice),
        },
    }
    .of_edition(edition);
    link_blocks(&mut orders, dice);
    orders
}

fn tiny_orders(dice: &mut Dice) -> Orders {
    let hours: &[u32] = dice.pick(&[&[1, 2], &[1, 2], &[23, 24], &[1, 2, 3]]);
    let market = Market {
        hours: hours.to_vec(),
        levels: price_levels(dice),
        step_quantities: vec![1, 2, 3],
        block_quantities: vec![1, 1, 2],
        // One for each side, so three hours come to at most six.
        most_steps_an_hour: if hours.len() == 2 { 2 } else { 1 },
        block_count: dice.below(5),
        blocks_of_a_portfolio: 5,
        lively: !dice.once_in(4),
    };
    let mut orders = orders_of(&market, dice);
    orders.steps.truncate(7);
    orders
}

/// A market in hours 1 and 2, with one step of each side in each of them.
fn two_hours(step_quantities: &[u32], block_quantities: &[u32], dice: &mut Dice) -> Market {
    Market {
        hours: vec![1, 2],
        levels: price_levels(dice),
        step_quantities: step_quantities.to_vec(),
        block_quantities: block_quantities.to_vec(),
        most_steps_an_hour: 1,
        block_count: dice.between(1, 3) as usize,
        blocks_of_a_portfolio: 10,
        lively: true,
    }
}

/// Six to nine blocks of one portfolio.
fn many_tiny_blocks(dice: &mut Dice) -> Orders {
    let mut market = two_hours(&[2, 3, 4], &[1, 1, 2], dice);
    market.block_count = dice.between(6, 9) as usize;
    orders_of(&market, dice)
}

/// Three steps and one to three blocks of 51 to 60.
fn three_large_steps(dice: &mut Dice) -> Orders {
    let mut orders = orders_of(&two_hours(&[51, 52, 60], &[51, 51, 60], dice), dice);
    orders.steps.truncate(3);
    orders
}

/// Two steps of one side and one to three blocks of up to 250.
fn two_larger_steps(dice: &mut Dice) -> Orders {
    let mut orders = orders_of(&two_hours(&[249, 250, 251], &[125, 250], dice), dice);
    let side = dice.pick(&[Side::Buy, Side::Sell]);
    orders.steps.retain(|step| step.side == side);
    orders
}

/// The orders of a random small book.
pub fn small_orders(dice: &mut Dice) -> Orders {
    small_orders_of(1, dice)
}

/// The orders of a random small book of an edition, see [`small_book_of`].
pub fn small_orders_of(edition: u32, dice: &mut Dice) -> Orders {
    let market = match edition {
        1 => small_market(dice),
        _ => wide_market(dice),
    };
    let mut orders = orders_of(&market, dice).of_edition(edition);
    link_blocks(&mut orders, dice);
    orders
}

fn small_market(dice: &mut Dice) -> Market {
    let hours = used_hours(dice);
    // The 24-hour books get fewer blocks, to keep the listing short.
    let most_blocks = if hours.len() > 6 { 5 } else { 9 };
    Market {
        hours,
        levels: price_levels(dice),
        step_quantities: step_quantities(dice),
        block_quantities: block_quantities(dice),
        most_steps_an_hour: dice.between(1, 5),
        block_count: dice.below(most_blocks + 1),
        blocks_of_a_portfolio: 5,
        lively: dice.once_in(2),
    }
}

fn wide_market(dice: &mut Dice) -> Market {
    let hours = used_hours(dice);
    let most_blocks = if hours.len() > 6 { 6 } else { 10 };
    let least_blocks = if dice.once_in(5) { 0 } else { 6 };
    Market {
        hours,
        levels: price_levels(dice),
        step_quantities: wide_step_quantities(dice),
        block_quantities: wide_block_quantities(dice),
        most_steps_an_hour: dice.between(1, 4),
        block_count: dice.between(least_blocks, most_blocks) as usize,
        blocks_of_a_portfolio: dice.pick(&[10, 10, 10, 6, 3]),
        lively: !dice.once_in(3),
    }
}

/// A book with a set of blocks and an hour to price under it. Sets beyond the
/// blocks and hours beyond the day are among them.
pub fn pricing_case(seed: u64) -> (Vec<u8>, u32, u32) {
    pricing_case_of(1, seed)
}

/// The same with a book of an edition.
pub fn pricing_case_of(edition: u32, seed: u64) -> (Vec<u8>, u32, u32) {
    let mut dice = Dice::new(seed ^ 0x7072_6963_6500_0000);
    let orders = small_orders_of(edition, &mut dice);
    pricing_case_in(&orders, &mut dice)
}

/// A book of some orders with a set of blocks and an hour.
pub(super) fn pricing_case_in(orders: &Orders, dice: &mut Dice) -> (Vec<u8>, u32, u32) {
    let blocks = orders.blocks.len();
    let book = placed(orders, dice);
    let known = (1u64 << blocks) as u32 - 1;
    let set = match dice.below(30) {
        0 => dice.bits() as u32,
        1 => 1 << dice.between(0, 31),
        2 => 1u32.checked_shl(blocks as u32).unwrap_or(0),
        3 => known,
        4 => 0,
        _ => dice.bits() as u32 & known,
    };
    let hour = match dice.below(30) {
        0 => dice.pick(&[0, 25, 255, 256, 257, 280, u32::MAX, 1 << 31]),
        1..=3 => dice.between(1, 24),
        _ => some_used_hour(orders, dice),
    };
    (book, set, hour)
}

/// Half of the books have their records in chain order, half in any order.
pub(super) fn placed(orders: &Orders, dice: &mut Dice) -> Vec<u8> {
    if dice.once_in(2) {
        orders.book()
    } else {
        orders.shuffled_book(dice)
    }
}

pub(super) fn some_used_hour(orders: &Orders, dice: &mut Dice) -> u32 {
    let step_hours = orders.steps.iter().map(|step| step.hour);
    let block_hours = orders.blocks.iter().map(|block| block.hours.trailing_zeros() + 1);
    let hours: Vec<u32> = step_hours.chain(block_hours).collect();
    if hours.is_empty() {
        dice.between(1, 24)
    } else {
        dice.pick(&hours)
    }
}

fn used_hours(dice: &mut Dice) -> Vec<u32> {
    match dice.below(6) {
        0 | 1 => vec![1, 2],
        2 => vec![1, 2, 23, 24],
        3 => vec![8, 9, 16, 17],
        4 => (0..dice.between(2, 6)).map(|_| dice.between(1, 24)).collect(),
        _ => (1..=24).collect(),
    }
}

pub(super) fn price_levels(dice: &mut Dice) -> Vec<u32> {
    match dice.below(8) {
        0 => vec![2_900, 3_000, 3_001, 5_000],
        1 => vec![1_000, 2_000, 3_000, 4_000, 5_000, 6_000],
        2 => vec![1, 2, 150_000, 299_999, 300_000],
        3 => vec![1, 300_000],
        4 => vec![10, 11, 12, 13],
        5 => vec![3_000, 5_000],
        6 => vec![dice.between(1, 300_000)],
        _ => (0..6).map(|_| dice.between(1, 300_000)).collect(),
    }
}

fn step_quantities(dice: &mut Dice) -> Vec<u32> {
    match dice.below(6) {
        0 => vec![1, 2, 3],
        1 => vec![10, 50, 100],
        2 => vec![50, 100, 100, 200],
        3 => vec![25, 30, 60, 75, 120],
        4 => vec![1, 99_999],
        _ => (0..5).map(|_| dice.between(1, 300)).collect(),
    }
}

fn block_quantities(dice: &mut Dice) -> Vec<u32> {
    match dice.below(5) {
        0 => vec![1, 2],
        1 => vec![50],
        2 => vec![10, 20, 25, 50],
        3 => vec![30, 40, 50],
        _ => (0..5).map(|_| dice.between(1, 50)).collect(),
    }
}

/// Quantities that blocks of 51 and more can be traded with.
fn wide_step_quantities(dice: &mut Dice) -> Vec<u32> {
    match dice.below(6) {
        0 => vec![250, 500, 1_000],
        1 => vec![50, 51, 100, 101],
        2 => vec![51, 200, 249, 250, 251],
        3 => vec![1, 99_999],
        // Room for all blocks of a portfolio together.
        4 => vec![2_000, 2_500],
        _ => (0..5).map(|_| dice.between(1, 1_500)).collect(),
    }
}

/// On both sides of edition 1's limit, and up to edition 2's.
fn wide_block_quantities(dice: &mut Dice) -> Vec<u32> {
    match dice.below(6) {
        0 => vec![250],
        1 => vec![50, 51, 249, 250],
        2 => vec![51],
        3 => vec![1, 100, 250],
        4 => vec![25, 50],
        _ => (0..5).map(|_| dice.between(1, 250)).collect(),
    }
}

fn orders_of(market: &Market, dice: &mut Dice) -> Orders {
    let mut orders = Orders::new();
    let mut hours = market.hours.clone();
    dice.shuffle(&mut hours);
    for hour in hours {
        add_steps(&mut orders, market, hour, dice);
    }
    // The steps of different hours mix along the chain.
    if dice.once_in(2) {
        dice.shuffle(&mut orders.steps);
    }
    add_blocks(&mut orders, market, dice);
    number_orders(&mut orders, dice);
    orders
}

fn add_steps(orders: &mut Orders, market: &Market, hour: u32, dice: &mut Dice) {
    let sides: &[Side] = match dice.below(8) {
        _ if market.lively => &[Side::Buy, Side::Sell],
        0 => return,
        1 => &[Side::Buy],
        2 => &[Side::Sell],
        _ => &[Side::Buy, Side::Sell],
    };
    for _ in 0..dice.between(1, market.most_steps_an_hour) {
        for &side in sides {
            orders.steps.push(StepOrder {
                number: 0,
                side,
                hour,
                price: level(market, side, dice),
                quantity: dice.pick(&market.step_quantities),
                portfolio: dice.between(1, 255),
            });
        }
    }
}

fn add_blocks(orders: &mut Orders, market: &Market, dice: &mut Dice) {
    // Some books have blocks of one side only.
    let sides: &[Side] = match dice.below(4) {
        0 => &[Side::Sell],
        1 => &[Side::Buy],
        _ => &[Side::Buy, Side::Sell],
    };
    for position in 0..market.block_count {
        let twin = orders.blocks.last().copied();
        let side = dice.pick(sides);
        let mut block = BlockOrder {
            number: 0,
            side,
            hours: block_hours(market, dice),
            price: block_price(market, side, dice),
            quantity: dice.pick(&market.block_quantities),
            portfolio: 3 + (position / market.blocks_of_a_portfolio) as u32 * dice.between(1, 50),
        };
        // Now and then the same block twice, or its opposite.
        if let (Some(twin), true) = (twin, dice.once_in(4)) {
            block.hours = twin.hours;
            block.quantity = twin.quantity;
            block.price = if dice.once_in(2) { twin.price } else { block.price };
        }
        orders.blocks.push(block);
    }
}

/// At least two hours, mostly of those that have steps.
fn block_hours(market: &Market, dice: &mut Dice) -> u32 {
    let all: Vec<u32> = (1..=24).collect();
    let hours = if dice.once_in(12) { &all } else { &market.hours };
    let wanted = match dice.below(3) {
        0 => 2,
        1 => hours.len(),
        _ => dice.between(2, 1 + hours.len() as u32) as usize,
    };
    let mut bits = 0;
    for _ in 0..wanted {
        bits |= hour_bits(&[dice.pick(hours)]);
    }
    while bits.count_ones() < 2 {
        bits |= hour_bits(&[dice.pick(hours), dice.pick(&all)]);
    }
    bits
}

/// A price level of the market.
fn level(market: &Market, side: Side, dice: &mut Dice) -> u32 {
    let (one, other) = (dice.pick(&market.levels), dice.pick(&market.levels));
    match side {
        Side::Buy if market.lively => one.max(other),
        Side::Sell if market.lively => one.min(other),
        _ => one,
    }
}

/// A price level, one next to it, or one between two of them.
fn block_price(market: &Market, side: Side, dice: &mut Dice) -> u32 {
    let level = level(market, side, dice);
    let price = match dice.below(6) {
        0 => level - 1,
        1 => level + 1,
        2 => (level + dice.pick(&market.levels)) / 2,
        _ => level,
    };
    price.clamp(1, 300_000)
}

/// Numbers that rise by one, rise by more, or end at the highest there is.
fn number_orders(orders: &mut Orders, dice: &mut Dice) {
    let most_gap = dice.pick(&[1, 1, 3, 200]);
    let mut number = 0;
    for step in &mut orders.steps {
        number += dice.between(1, most_gap);
        step.number = number;
    }
    number = 0;
    for block in &mut orders.blocks {
        number += dice.between(1, most_gap);
        block.number = number;
    }
    if dice.once_in(10) {
        if let Some(step) = orders.steps.last_mut() {
            step.number = 65_535;
        }
        if let Some(block) = orders.blocks.last_mut() {
            block.number = 65_535;
        }
    }
}
