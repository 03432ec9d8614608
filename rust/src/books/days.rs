//! Books of days of 23, 24 and 25 hours, accepted and damaged: those of `random` and
//! `damage` with an hour of theirs moved to hour 3, and limits on a tick.
//!
//! A function whose name ends with `on` takes the hours of the day and the edition first.

use super::builder::{hour_bits, hours_in, Orders};
use super::damage::{bytes_changed, ensure_orders, with_causes, SOME_EDITIONS};
use super::dice::Dice;
use super::links::{with_parents_only, LINKED_EDITION};
use super::random::{placed, pricing_case_in, small_orders_of, some_used_hour, tiny_orders_of};
use super::step_limit::has_step_limit;
use crate::paper::{passing_hours, price_hour, HourAnswer, Side, CHANGED_HOUR};

/// The hours that a day may have.
pub const DAYS: [u32; 3] = [23, 24, 25];

/// Each length of a day in each edition.
pub const DAYS_AND_EDITIONS: [(u32, u32); 12] = [
    (23, 1),
    (24, 1),
    (25, 1),
    (23, 2),
    (24, 2),
    (25, 2),
    (23, 3),
    (24, 3),
    (25, 3),
    (23, 4),
    (24, 4),
    (25, 4),
];

/// A random book of a day and an edition as `small_book_of` has them. Most have blocks over
/// hour 3, and in half of them some limits are met or missed by a cent.
pub fn small_book_on(day: u32, edition: u32, seed: u64) -> Vec<u8> {
    let mut dice = dice_of(seed);
    let orders = small_orders_on(day, edition, &mut dice);
    placed(&orders, &mut dice)
}

/// The orders of a random book of a day and an edition.
pub fn small_orders_on(day: u32, edition: u32, dice: &mut Dice) -> Orders {
    on_day(small_orders_of(edition, dice), day, dice)
}

/// A random book of a day and an edition, so small that all its contenders can be listed.
pub fn tiny_book_on(day: u32, edition: u32, seed: u64) -> Vec<u8> {
    let mut dice = dice_of(seed);
    let orders = on_day(tiny_orders_of(edition, &mut dice), day, &mut dice);
    placed(&orders, &mut dice)
}

/// A book of a day and an edition with a set of blocks and an hour, often hour 3.
pub fn pricing_case_on(day: u32, edition: u32, seed: u64) -> (Vec<u8>, u32, u32) {
    let mut dice = dice_of(seed);
    let orders = small_orders_on(day, edition, &mut dice);
    let (book, set, hour) = pricing_case_in(&orders, &mut dice);
    let hour = if dice.once_in(4) { CHANGED_HOUR } else { hour };
    (book, set, hour)
}

/// Other books than those of the same seed in `random`.
fn dice_of(seed: u64) -> Dice {
    Dice::new(seed ^ 0x6461_7973_0000_0000)
}

/// The orders on a day of so many hours.
fn on_day(orders: Orders, day: u32, dice: &mut Dice) -> Orders {
    let mut orders = orders.on_day_of(day);
    if day == 23 {
        leave_hour_3(&mut orders, dice);
    } else {
        use_hour_3(&mut orders, dice);
    }
    if dice.once_in(2) {
        put_limits_on_ticks(&mut orders, dice);
    }
    orders
}

/// Moves all orders of an hour that is used to hour 3, and those of hour 3 to that hour.
fn use_hour_3(orders: &mut Orders, dice: &mut Dice) {
    let used = some_used_hour(orders, dice);
    let swapped = |hour: u32| match hour {
        CHANGED_HOUR => used,
        hour if hour == used => CHANGED_HOUR,
        hour => hour,
    };
    orders.steps.iter_mut().for_each(|step| step.hour = swapped(step.hour));
    for block in &mut orders.blocks {
        let hours: Vec<u32> = hours_in(block.hours).into_iter().map(swapped).collect();
        block.hours = hour_bits(&hours);
    }
}

/// Drops the steps of hour 3, names it in most blocks, and gives each block two other hours.
fn leave_hour_3(orders: &mut Orders, dice: &mut Dice) {
    orders.steps.retain(|step| step.hour != CHANGED_HOUR);
    let changed = hour_bits(&[CHANGED_HOUR]);
    for position in 0..orders.blocks.len() {
        let mut hours = orders.blocks[position].hours & !changed;
        while hours.count_ones() < 2 {
            hours |= hour_bits(&[some_used_hour(orders, dice), dice.between(4, 24)]) & !changed;
        }
        orders.blocks[position].hours = if dice.once_in(4) { hours } else { hours | changed };
    }
}

/// Gives the blocks of a set the prices at which they just keep their limits under it, or
/// miss them by a cent; now and then as another day would count the hours. What the hours
/// pay does not depend on these prices.
fn put_limits_on_ticks(orders: &mut Orders, dice: &mut Dice) {
    let book = orders.book();
    let set = dice.bits() as u32 & ((1 << orders.blocks.len()) - 1);
    let set = with_parents_only(orders, set);
    let price_in = |hour| match price_hour(&book, set, hour) {
        HourAnswer::Cleared { price, .. } => Some(price),
        _ => None,
    };
    for (position, block) in orders.blocks.iter_mut().enumerate() {
        let counted_as = if dice.once_in(6) { dice.pick(&DAYS) } else { orders.day };
        let (day, named) = (passing_hours(counted_as).expect("a day"), hours_in(block.hours));
        let hours = day.into_iter().filter(|hour| named.contains(hour));
        let prices: Option<Vec<u32>> = hours.map(price_in).collect();
        let (Some(prices), 1) = (prices, (set >> position) & 1) else { continue };
        let (sum, count) = (prices.iter().sum::<u32>(), prices.len() as u32);
        let just_kept = if block.side == Side::Sell { sum / count } else { sum.div_ceil(count) };
        block.price = (just_kept + dice.pick(&[0, 1, 1, 1, 2])).saturating_sub(1).clamp(1, 300_000);
    }
}

/// The causes for which a book by itself is refused, in the order in which they are given.
pub const OWN_CAUSES: [u8; 9] = [1, 2, 3, 4, 5, 6, 9, 10, 11];

/// Those that a book of a day and an edition can have: 9 is of a day of 23 hours, 10 is of
/// edition 3 and later ones, and 11 of edition 4.
pub fn own_causes(day: u32, edition: u32) -> Vec<u8> {
    let can_be = |cause: &u8| match cause {
        9 => day == 23,
        10 => edition >= LINKED_EDITION,
        11 => has_step_limit(edition),
        _ => true,
    };
    OWN_CAUSES.into_iter().filter(can_be).collect()
}

/// A random book of a day and an edition with each of these of its [`own_causes`], so that
/// the first of them is its refusal.
pub fn book_with_causes_on(day: u32, edition: u32, causes: &[u8], dice: &mut Dice) -> Vec<u8> {
    with_causes(small_orders_on(day, edition, dice), causes, dice)
}

/// A book for a reader, of a day and an edition: accepted ones, one cause, two causes, any
/// number of hours in the head, orders that are wrong or right by hour 3, random changes.
pub fn reader_book_on(day: u32, edition: u32, seed: u64) -> Vec<u8> {
    let mut dice = dice_of(seed ^ 0x7265_6164);
    let causes = own_causes(day, edition);
    let one = dice.pick(&causes);
    let kind = dice.below(10);
    if (2..=5).contains(&kind) {
        let other = if kind < 4 { one } else { dice.pick(&causes) };
        return book_with_causes_on(day, edition, &[one, other], &mut dice);
    }
    let mut orders = small_orders_on(day, edition, &mut dice);
    match kind {
        6 => orders.day = dice.pick(&[0, 3, 22, 23, 24, 25, 26, 255]),
        7 => orders.day = dice.between(0, 255),
        8 => change_hours(&mut orders, &mut dice),
        9 => return bytes_changed(&orders, &mut dice),
        _ => {}
    }
    orders.shuffled_book(&mut dice)
}

/// Some hours at and around hour 3 for a step and a block.
fn change_hours(orders: &mut Orders, dice: &mut Dice) {
    ensure_orders(orders, dice);
    if dice.once_in(2) {
        let position = dice.below(orders.steps.len());
        orders.steps[position].hour = dice.pick(&[2, 3, 3, 4]);
    }
    let hours: &[u32] = dice.pick(&[
        &[3][..],
        &[2, 3],
        &[3, 4],
        &[1, 3],
        &[3, 24],
        &[2, 4],
        &[2, 3, 4],
        &[1, 2, 3],
        &[],
    ]);
    let position = dice.below(orders.blocks.len());
    orders.blocks[position].hours = hour_bits(hours);
    orders.day = dice.pick(&[22, 23, 23, 23, 24, 25, 26]);
}

/// Books at the edges of the days: any number of hours in the head; on each day a step of
/// each hour, a block of each hour, of each two and of each three with hour 3; and wrong
/// hours beside each other cause, under every edition of [`SOME_EDITIONS`].
pub fn day_edges() -> Vec<Vec<u8>> {
    let mut books: Vec<Vec<u8>> = Vec::new();
    for day in 0..=255 {
        books.push(Orders::new().on_day_of(day).book());
        books.push(Orders::new().step(Side::Buy, CHANGED_HOUR, 5, 5, 5).on_day_of(day).book());
        books.push(block_over(&[2, CHANGED_HOUR]).of_edition(2).on_day_of(day).book());
    }
    for (day, edition) in DAYS_AND_EDITIONS {
        let mut push =
            |orders: Orders| books.push(orders.of_edition(edition).on_day_of(day).book());
        for hour in 1..=24 {
            push(Orders::new().step(Side::Sell, hour, 5, 5, 5));
            push(block_over(&[hour]));
            for other in hour + 1..=24 {
                push(block_over(&[hour, other]));
                push(block_over(&[CHANGED_HOUR, hour, other]));
            }
        }
    }
    books.extend(DAYS.iter().flat_map(|&day| two_causes(day)));
    books
}

fn block_over(hours: &[u32]) -> Orders {
    Orders::new().block(Side::Sell, hours, 2_900, 50, 3)
}

/// A step for hour 3 or a block over hours 2 and 3 beside another cause, and beside none.
fn two_causes(day: u32) -> Vec<Vec<u8>> {
    let mut books = Vec::new();
    let with_step = block_over(&[4, 5]).step(Side::Buy, CHANGED_HOUR, 5_000, 100, 1);
    let with_block = block_over(&[2, CHANGED_HOUR]).step(Side::Buy, 4, 5_000, 100, 1);
    for (edition, orders) in
        SOME_EDITIONS.iter().flat_map(|edition| [(edition, &with_step), (edition, &with_block)])
    {
        let orders = orders.clone().of_edition(*edition).on_day_of(day);
        let mut push = |change: fn(&mut Orders)| {
            let mut changed = orders.clone();
            change(&mut changed);
            books.push(changed.book());
        };
        push(|_| ());
        push(|orders| orders.blocks[0].quantity = 0);
        push(|orders| orders.blocks[0].hours = hour_bits(&[CHANGED_HOUR]));
        push(|orders| orders.steps[0].price = 300_001);
        push(|orders| orders.steps[0].number = 0);
        push(|orders| {
            *orders = (0..11).fold(orders.clone(), |all, _| all.block(Side::Buy, &[4, 5], 1, 1, 3))
        });
        let book = orders.book();
        let mut stray = [&book[..], &[0; 16]].concat();
        stray[1] += 1;
        books.push(stray);
        books.push(book[..book.len() - 1].to_vec());
    }
    books
}
