//! Books in which portfolios matter: few of them, so that most trade on both sides and with
//! themselves, or all 255.
//!
//! The functions take the hours of the day and the edition first, as those of `days`.

use super::builder::{Orders, StepOrder};
use super::days::small_orders_on;
use super::dice::Dice;
use super::random::placed;
use crate::paper::{Side, CHANGED_HOUR};

/// The portfolios are numbered from 1 to this.
const LAST_PORTFOLIO: u32 = 255;

/// A random book as `small_book_on` has them, with its steps handed to other portfolios.
pub fn cash_book_on(day: u32, edition: u32, seed: u64) -> Vec<u8> {
    let mut dice = dice_of(seed);
    let orders = cash_orders_on(day, edition, &mut dice);
    placed(&orders, &mut dice)
}

/// The orders of such a book. Blocks keep their portfolios, of which there may not be fewer.
pub fn cash_orders_on(day: u32, edition: u32, dice: &mut Dice) -> Orders {
    let mut orders = small_orders_on(day, edition, dice);
    let owners: Vec<u32> = orders.blocks.iter().map(|block| block.portfolio).collect();
    let few: Vec<u32> = match dice.below(5) {
        0 => vec![dice.between(1, LAST_PORTFOLIO)],
        1 => vec![1, LAST_PORTFOLIO],
        2 => vec![9, 10, 99, 100],
        3 if !owners.is_empty() => owners,
        _ => (1..=dice.between(2, 6)).collect(),
    };
    orders.steps.iter_mut().for_each(|step| step.portfolio = dice.pick(&few));
    orders
}

/// A book with an order of each of the 255 portfolios and at most four blocks. Its steps, up
/// to as many as there may be, stand around a few prices, so that half of them get nothing.
pub fn crowded_book_on(day: u32, edition: u32, seed: u64) -> Vec<u8> {
    let mut dice = dice_of(seed ^ 0x6d61_6e79);
    let mut orders = Orders { steps: Vec::new(), ..small_orders_on(day, edition, &mut dice) };
    orders.blocks.truncate(4);
    orders.links.retain(|link| orders.blocks.iter().any(|block| block.number == link.child));
    let room = 2_047 - orders.count();
    let count = dice.pick(&[LAST_PORTFOLIO as usize, 300, 700, room]);
    for index in 0..count as u32 {
        orders.steps.push(step_of(day, index, &mut dice));
    }
    orders.shuffled_book(&mut dice)
}

/// The first steps go to one portfolio each, the others to any.
fn step_of(day: u32, index: u32, dice: &mut Dice) -> StepOrder {
    let hour = dice.between(1, 24);
    StepOrder {
        number: index + 1,
        side: dice.pick(&[Side::Buy, Side::Sell]),
        hour: if (day, hour) == (23, CHANGED_HOUR) { 4 } else { hour },
        price: dice.pick(&[1, 2_999, 3_000, 3_001, 299_999, 300_000]),
        quantity: dice.pick(&[1, 50, 99_999]),
        portfolio: if index < LAST_PORTFOLIO {
            LAST_PORTFOLIO - index
        } else {
            dice.between(1, LAST_PORTFOLIO)
        },
    }
}

/// Other books than those of the same seed elsewhere.
fn dice_of(seed: u64) -> Dice {
    Dice::new(seed ^ 0x6361_7368_0000_0000)
}
