//! Document 02, P8: books at and beyond the most steps of a portfolio in an hour.

use super::builder::{hour_bits, put, BlockOrder, LinkOrder, Orders, StepOrder};
use super::damage::SOME_EDITIONS;
use super::days::{small_orders_on, DAYS};
use super::dice::Dice;
use crate::paper::{limits, Side, CHANGED_HOUR};

/// "003 allows 256 price points per portfolio and hour."
pub const MOST_STEPS: usize = 256;

/// Whether an edition has such a limit.
pub(super) fn has_step_limit(edition: u32) -> bool {
    limits(edition).is_some_and(|limits| limits.steps_in_an_hour.is_some())
}

/// Adds one step more than there may be of a portfolio in an hour, or some more, between the
/// others. The steps are to be numbered anew.
pub(super) fn crowd_an_hour(orders: &mut Orders, dice: &mut Dice) {
    let (hour, portfolio) = (some_hour(orders.day, dice), dice.between(1, 255));
    let count = MOST_STEPS as u32 + dice.pick(&[1, 1, 2, 40]);
    for _ in 0..count {
        let place = dice.below(orders.steps.len() + 1);
        let side = dice.pick(&[Side::Buy, Side::Sell]);
        let price = dice.pick(&[1, 2_999, 3_000, 3_001, 300_000]);
        let quantity = dice.between(1, 100);
        let step = StepOrder { number: 0, side, hour, price, quantity, portfolio };
        orders.steps.insert(place, step);
    }
}

/// An hour that the day has.
fn some_hour(day: u32, dice: &mut Dice) -> u32 {
    match dice.between(1, 24) {
        CHANGED_HOUR if day == 23 => 4,
        hour => hour,
    }
}

/// A random book with 254 to 258 steps of a portfolio in an hour, beside others of its hours
/// and of other portfolios, on both sides, and up to four blocks; of any edition.
pub fn step_limit_book(day: u32, edition: u32, seed: u64) -> Vec<u8> {
    let mut dice = Dice::new(seed ^ 0x7374_6570_7300_0000);
    let mut orders = small_orders_on(day, edition, &mut dice);
    orders.blocks.truncate(4);
    orders.links.retain(|link| orders.blocks.iter().any(|block| block.number == link.child));
    orders.steps.truncate(20);
    let (hour, portfolio) = (some_hour(day, &mut dice), dice.between(1, 254));
    let of_hour = |step: &StepOrder| (step.portfolio, step.hour) == (portfolio, hour);
    orders.steps.retain(|step| !of_hour(step));
    let sides = dice.pick(&[&[Side::Buy][..], &[Side::Sell], &[Side::Buy, Side::Sell]]);
    let mut push = |count: u32, hour: u32, portfolio: u32, dice: &mut Dice| {
        for _ in 0..count {
            let price = dice.between(2_990, 3_010);
            let (side, quantity) = (dice.pick(sides), dice.between(1, 100));
            orders.steps.push(StepOrder { number: 0, side, hour, price, quantity, portfolio });
        }
    };
    push(dice.between(254, 258), hour, portfolio, &mut dice);
    if dice.once_in(3) {
        push(dice.between(1, 256), hour, portfolio + 1, &mut dice);
    }
    if dice.once_in(3) {
        let other = if hour == 24 { 23 } else { 24 };
        push(dice.between(1, 256), other, portfolio, &mut dice);
    }
    dice.shuffle(&mut orders.steps);
    for (number, step) in (1..).zip(&mut orders.steps) {
        step.number = number;
    }
    orders.shuffled_book(&mut dice)
}

/// So many steps of a portfolio in an hour, behind those that there are.
fn with_steps(orders: Orders, count: usize, side: Side, hour: u32, portfolio: u32) -> Orders {
    (0..count).fold(orders, |orders, _| orders.step(side, hour, 3_000, 10, portfolio))
}

/// Books at the edges of the limit under every edition of [`SOME_EDITIONS`], on each day: 255
/// to 257 steps of a portfolio, of one side and of both, of two portfolios and in two hours;
/// and one too many beside each other cause.
pub fn step_limit_edges() -> Vec<Vec<u8>> {
    let mut books = Vec::new();
    for (edition, day) in
        SOME_EDITIONS.into_iter().flat_map(|edition| DAYS.map(|day| (edition, day)))
    {
        let base = Orders::new().of_edition(edition).on_day_of(day);
        let mut push = |orders: Orders| books.push(orders.book());
        for count in [MOST_STEPS - 1, MOST_STEPS, MOST_STEPS + 1] {
            for portfolio in [1, 255] {
                for hour in [1, 4, 24] {
                    push(with_steps(base.clone(), count, Side::Buy, hour, portfolio));
                }
                let half = with_steps(base.clone(), 128, Side::Sell, 1, portfolio);
                push(with_steps(half, count - 128, Side::Buy, 1, portfolio));
            }
            let two = with_steps(base.clone(), MOST_STEPS, Side::Sell, 2, 7);
            push(with_steps(two.clone(), count, Side::Buy, 2, 8));
            push(with_steps(two.clone(), count, Side::Sell, 5, 7));
            push(with_steps(two, count - MOST_STEPS / 2, Side::Buy, 2, 7));
            // Of two portfolios, or in two hours, one more than the limit together.
            let part = with_steps(base.clone(), count / 2, Side::Buy, 2, 7);
            push(with_steps(part.clone(), count - count / 2, Side::Buy, 2, 9));
            push(with_steps(part, count - count / 2, Side::Buy, 6, 7));
            push(with_steps(base.clone(), count, Side::Buy, CHANGED_HOUR, 7));
        }
        books.extend(two_causes(&base));
    }
    books
}

/// One step too many, and the last that may be, beside each other cause and beside none.
fn two_causes(base: &Orders) -> Vec<Vec<u8>> {
    let mut books = Vec::new();
    for count in [MOST_STEPS, MOST_STEPS + 1] {
        let block =
            |orders: Orders, portfolio| orders.block(Side::Sell, &[1, 2, 4], 2_900, 50, portfolio);
        let orders = block(block(with_steps(base.clone(), count, Side::Buy, 1, 3), 3), 3);
        let mut push = |change: &dyn Fn(&mut Orders)| {
            let mut changed = orders.clone();
            change(&mut changed);
            books.push(changed.book());
        };
        push(&|_| ());
        push(&|orders| orders.steps[9].number = 9);
        push(&|orders| orders.steps[9].quantity = 0);
        push(&|orders| orders.blocks[1].quantity = 251);
        push(&|orders| {
            let more = BlockOrder { number: 3, ..orders.blocks[1] };
            orders.blocks.extend((3..40).map(|number| BlockOrder { number, ..more }));
        });
        push(&|orders| orders.blocks[0].hours = hour_bits(&[2, CHANGED_HOUR]));
        push(&|orders| orders.links.push(LinkOrder { child: 2, parent: 1 }));
        push(&|orders| orders.links.push(LinkOrder { child: 2, parent: 5 }));
        let book = orders.book();
        let mut stray = [&book[..], &[0; 16]].concat();
        let records = stray.len() / 16;
        put(&mut stray, 0, 0, 2, records as u32);
        books.push(stray);
        books.push(book[..book.len() - 1].to_vec());
    }
    books
}
