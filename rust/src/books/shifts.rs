//! Books of edition 4 in which prices give way: blocks that trade with each other, in hours
//! whose L and H lie far apart or close together, with limits that pull the shift of a set
//! up, down or both ways.
//!
//! The functions take the hours of the day and the edition first, as those of `days`; in
//! editions 2 and 3 the same orders have middle prices.

use super::builder::{hour_bits, hours_in, BlockOrder, Orders, StepOrder};
use super::dice::Dice;
use super::links::{link_blocks, with_parents_only};
use super::random::placed;
use crate::paper::{passing_hours, price_hour, shifted, HourAnswer, Side, CHANGED_HOUR};

/// A random book of a day and an edition, of 1 to 8 blocks; its records stand in any order.
pub fn shifted_book_on(day: u32, edition: u32, seed: u64) -> Vec<u8> {
    let mut dice = dice_of(seed);
    let orders = shifted_orders_on(day, edition, &mut dice);
    placed(&orders, &mut dice)
}

/// The orders of such a book. Four of five have their limits at chosen shifts of some set,
/// and a third has links.
pub fn shifted_orders_on(day: u32, edition: u32, dice: &mut Dice) -> Orders {
    let mut orders = Orders::new().of_edition(edition).on_day_of(day);
    let hours = used_hours(day, dice);
    let level = dice.pick(&[1_000, 3_000, 50_000, 150_000, 290_000]);
    for &hour in &hours {
        add_steps(&mut orders, hour, level, dice);
    }
    add_blocks(&mut orders, &hours, level, dice);
    number_from_one(&mut orders);
    if dice.once_in(3) {
        link_blocks(&mut orders, dice);
    }
    if !dice.once_in(5) {
        put_limits_at_shifts(&mut orders, dice);
    }
    orders
}

/// A book of a day and an edition, so small that all its contenders can be listed: at most
/// four blocks of at most 2, at most two steps an hour of at most 3.
pub fn tiny_shifted_book_on(day: u32, edition: u32, seed: u64) -> Vec<u8> {
    let mut dice = dice_of(seed ^ 0x7469_6e79);
    let mut orders = shifted_orders_on(day, edition, &mut dice);
    orders.blocks.truncate(4);
    orders.links.retain(|link| orders.blocks.iter().any(|block| block.number == link.child));
    let mut met = [0; 25];
    orders.steps.retain(|step| {
        met[step.hour as usize] += 1;
        met[step.hour as usize] <= 2
    });
    orders.steps.truncate(7);
    orders.steps.iter_mut().for_each(|step| step.quantity = 1 + step.quantity % 3);
    orders.blocks.iter_mut().for_each(|block| block.quantity = 1 + block.quantity % 2);
    put_limits_at_shifts(&mut orders, &mut dice);
    placed(&orders, &mut dice)
}

/// Other books than those of the same seed elsewhere.
fn dice_of(seed: u64) -> Dice {
    Dice::new(seed ^ 0x7368_6966_7400_0000)
}

/// A few hours of the day, hour 3 often among them, or all of them.
fn used_hours(day: u32, dice: &mut Dice) -> Vec<u32> {
    let mut hours = match dice.below(6) {
        0 => vec![1, 2],
        1 => vec![2, 3, 4],
        2 => vec![3, 24],
        3 => (1..=24).collect(),
        _ => (0..dice.between(2, 5)).map(|_| dice.between(1, 24)).collect(),
    };
    hours.sort_unstable();
    hours.dedup();
    hours.retain(|&hour| (day, hour) != (23, CHANGED_HOUR));
    for other in [5, 6] {
        if hours.len() < 2 && !hours.contains(&other) {
            hours.push(other);
        }
    }
    hours
}

/// The steps of an hour about a level: none, of one side, a sell above a buy, so that
/// nothing is traded and L and H are theirs, or steps that trade.
fn add_steps(orders: &mut Orders, hour: u32, level: u32, dice: &mut Dice) {
    let gap = dice.pick(&[0, 1, 2, 3, 7, 100, 999, 1_000, 1_001, 9_000]);
    let quantity = dice.pick(&[1, 50, 100, 250, 1_000]);
    let mut push = |side: Side, price: u32| {
        let portfolio = orders.steps.len() as u32 % 255 + 1;
        let price = price.clamp(1, 300_000);
        orders.steps.push(StepOrder { number: 0, side, hour, price, quantity, portfolio });
    };
    match dice.below(8) {
        0 | 1 => {}
        2 => push(Side::Buy, level),
        3 => push(Side::Sell, level),
        4 | 5 => {
            push(Side::Buy, level.saturating_sub(gap / 2));
            push(Side::Sell, level + gap.div_ceil(2));
        }
        _ => {
            for _ in 0..dice.between(1, 3) {
                push(Side::Buy, level + dice.between(0, gap));
                push(Side::Sell, level.saturating_sub(dice.between(0, gap)));
            }
        }
    }
}

/// Groups of blocks that can trade with each other: one against one, one against two halves,
/// two alike against one; and now and then a block for itself.
fn add_blocks(orders: &mut Orders, hours: &[u32], level: u32, dice: &mut Dice) {
    let count = dice.between(1, 8) as usize;
    while orders.blocks.len() < count {
        let (one, other) = dice.pick(&[(Side::Sell, Side::Buy), (Side::Buy, Side::Sell)]);
        let own = block_hours(hours, dice);
        let half = dice.pick(&[1, 5, 25, 50, 125]);
        let mut push = |side: Side, hours: u32, quantity: u32, dice: &mut Dice| {
            let spread = dice.pick(&[0, 1, 10, 1_000, 20_000]);
            let price = match side {
                Side::Sell => level.saturating_sub(dice.between(0, spread)),
                Side::Buy => level + dice.between(0, spread),
            };
            let portfolio = 3 + orders.blocks.len() as u32 / 10;
            let price = price.clamp(1, 300_000);
            orders.blocks.push(BlockOrder { number: 0, side, hours, price, quantity, portfolio });
        };
        push(one, own, 2 * half, dice);
        match dice.below(6) {
            0 => {}
            1 => push(other, block_hours(hours, dice), 2 * half, dice),
            2 | 3 => push(other, own, 2 * half, dice),
            _ => {
                push(other, own, half, dice);
                push(other, own, half, dice);
            }
        }
    }
    orders.blocks.truncate(8);
    dice.shuffle(&mut orders.blocks);
}

/// Two hours or more of those that are used.
fn block_hours(hours: &[u32], dice: &mut Dice) -> u32 {
    if dice.once_in(2) {
        return hour_bits(hours);
    }
    let mut bits = 0u32;
    while bits.count_ones() < 2 {
        bits |= hour_bits(&[dice.pick(hours), dice.pick(hours)]);
    }
    bits
}

fn number_from_one(orders: &mut Orders) {
    for (number, step) in (1..).zip(&mut orders.steps) {
        step.number = number;
    }
    for (number, block) in (1..).zip(&mut orders.blocks) {
        block.number = number;
    }
}

/// Gives the blocks of a set the prices at which they just keep their limits at a shift, one
/// for its sells and one for its buys, or miss them there by a cent. L and H do not depend on
/// these prices.
fn put_limits_at_shifts(orders: &mut Orders, dice: &mut Dice) {
    let book = orders.book();
    let all = (1 << orders.blocks.len()) - 1;
    let set = if dice.once_in(2) { all } else { dice.bits() as u32 & all };
    let set = with_parents_only(orders, set);
    let ends_in = |hour| match price_hour(&book, set, hour) {
        HourAnswer::Cleared { low, high, .. } => Some((low, high)),
        _ => None,
    };
    let [of_sells, of_buys] = [(); 2].map(|()| some_shift(dice));
    let day = passing_hours(orders.day).expect("a day");
    for (position, block) in orders.blocks.iter_mut().enumerate() {
        let named = hours_in(block.hours);
        let hours = day.iter().filter(|hour| named.contains(hour));
        let ends: Option<Vec<(u32, u32)>> = hours.map(|&hour| ends_in(hour)).collect();
        let (Some(ends), 1) = (ends, (set >> position) & 1) else { continue };
        let sum = |t| ends.iter().map(|&(low, high)| shifted(low, high, t)).sum::<u32>();
        let count = ends.len() as u32;
        let just_kept = match block.side {
            Side::Sell => sum(of_sells) / count,
            Side::Buy => sum(of_buys).div_ceil(count),
        };
        let moved = just_kept + dice.pick(&[0, 1, 1, 1, 1, 1, 2]);
        block.price = moved.saturating_sub(1).clamp(1, 300_000);
    }
}

/// The middle, the ends, those next to them, or any.
fn some_shift(dice: &mut Dice) -> u32 {
    match dice.below(4) {
        0 => dice.pick(&[0, 1, 499, 500, 501, 999, 1_000]),
        _ => dice.between(0, 1_000),
    }
}

/// The shifts at the middle and at the ends, and those next to them.
const EDGE_SHIFTS: [u32; 7] = [0, 1, 499, 500, 501, 999, 1_000];

/// Books at the edges of the shift, of each day: a sell and a buy that trade with each other,
/// their limits at each of [`EDGE_SHIFTS`] or a cent beside it, so that of the shifts none is
/// left, one, or some; in hours of every gap between L and H.
pub fn shift_edges() -> Vec<Vec<u8>> {
    let mut books = Vec::new();
    // L and H of hours 2 and 3; hour 4 has the same as hour 3.
    let markets = [
        [(1, 300_000), (1, 300_000)],
        [(4_000, 4_001), (4_000, 4_001)],
        [(4_000, 4_000), (5_000, 6_000)],
        [(1, 2), (299_999, 300_000)],
    ];
    for (day, market) in [23, 24, 25].into_iter().flat_map(|day| markets.map(|it| (day, it))) {
        for (of_sell, of_buy) in pairs_of_shifts() {
            for (sell_by, buy_by) in [(0, 0), (1, 1), (1, 0), (0, 1), (2, 1), (1, 2)] {
                let book = edge_book(day, market, [of_sell, of_buy], [sell_by, buy_by]);
                books.push(book);
            }
        }
    }
    books
}

fn pairs_of_shifts() -> impl Iterator<Item = (u32, u32)> {
    EDGE_SHIFTS.into_iter().flat_map(|one| EDGE_SHIFTS.map(|other| (one, other)))
}

/// A sell and a buy over hours 2 to 4, which just keep their limits at a shift each; they are
/// then moved by so many cents less one.
fn edge_book(day: u32, ends: [(u32, u32); 2], shifts: [u32; 2], moves: [u32; 2]) -> Vec<u8> {
    let mut orders = Orders::new().of_edition(4).on_day_of(day);
    let hours = [(2, ends[0]), (CHANGED_HOUR, ends[1]), (4, ends[1])];
    for (hour, (low, high)) in hours {
        if (day, hour) != (23, CHANGED_HOUR) && (low, high) != (1, 300_000) {
            orders = orders.step(Side::Buy, hour, low, 9, 1).step(Side::Sell, hour, high, 9, 2);
        }
    }
    let day = passing_hours(day).expect("a day");
    let of_day = |hour: u32| day.iter().filter(|&&other| other == hour).count() as u32;
    let count: u32 = hours.iter().map(|(hour, _)| of_day(*hour)).sum();
    let sum = |t: u32| -> u32 {
        hours.iter().map(|&(hour, (low, high))| of_day(hour) * shifted(low, high, t)).sum()
    };
    let [sell, buy] = [sum(shifts[0]) / count, sum(shifts[1]).div_ceil(count)];
    let moved = |price: u32, by: u32| (price + by).saturating_sub(1).clamp(1, 300_000);
    let named = hours.map(|(hour, _)| hour);
    orders
        .block(Side::Sell, &named, moved(sell, moves[0]), 50, 3)
        .block(Side::Buy, &named, moved(buy, moves[1]), 50, 4)
        .book()
}
