//! Demand 3 taken literally: every set with every choice of step quantities.

use super::day::{ends_under, holds_parents, is_better, welfare};
use super::read::{read, Book, Side, Step, HOURS};
use super::shift::shift_of;

/// A set of blocks with a whole quantity for each step, balanced in every hour of the day
/// and with every block of the set within its limit and beside its parent.
#[derive(Clone, Debug, PartialEq, Eq)]
pub struct Contender {
    /// The lowest bit stands for the first block of the chain.
    pub set: u32,
    /// One for each step, in chain order, from 0 to the step's own.
    pub quantities: Vec<i64>,
    /// May be below zero.
    pub welfare: i128,
}

/// The best of all contenders.
#[derive(Clone, Copy, Debug, PartialEq, Eq)]
pub struct BestContender {
    pub welfare: i128,
    /// Of the sets that reach the welfare, the one of the tie rule.
    pub set: u32,
    /// How many contenders there are.
    pub count: u64,
}

/// Lists every contender of a book and gives the best, or the book's refusal.
///
/// Only for tiny books: the choices of quantities multiply.
pub fn contenders(book: &[u8]) -> Result<BestContender, u8> {
    let book = read(book)?;
    let mut best: Option<BestContender> = None;
    let mut count = 0;
    for_each_contender(&book, &mut |contender| {
        count += 1;
        let new = (contender.welfare, contender.set);
        if best.is_none_or(|old| is_better(new, (old.welfare, old.set))) {
            best = Some(BestContender { welfare: new.0, set: new.1, count: 0 });
        }
    });
    let best = best.expect("trading nothing is a contender");
    Ok(BestContender { count, ..best })
}

/// Calls `visit` with every contender of the book.
pub fn for_each_contender(book: &Book, visit: &mut dyn FnMut(&Contender)) {
    let hours: Vec<Vec<Step>> = (1..=HOURS).map(|hour| book.steps_of(hour)).collect();
    for set in 0..1u64 << book.blocks.len() {
        let set = set as u32;
        if !holds_parents(book, set) {
            continue;
        }
        // Prices depend on the set alone. Where an hour does not clear, no
        // choice of quantities balances it, so there is nothing to list.
        let Some(ends) = ends_under(book, &hours, set) else {
            assert!(!some_choice_balances(book, set), "a balanced hour clears");
            continue;
        };
        let within_limits = shift_of(book, set, &ends).is_some();
        if within_limits {
            for_each_choice(book, &mut Vec::new(), &mut |quantities| {
                if balances(book, set, quantities) {
                    visit(&Contender {
                        set,
                        quantities: quantities.to_vec(),
                        welfare: welfare(book, set, quantities),
                    });
                }
            });
        }
    }
}

fn some_choice_balances(book: &Book, set: u32) -> bool {
    let mut found = false;
    for_each_choice(book, &mut Vec::new(), &mut |quantities| {
        found = found || balances(book, set, quantities);
    });
    found
}

/// Calls `visit` with every choice of quantities that begins with `chosen`.
fn for_each_choice(book: &Book, chosen: &mut Vec<i64>, visit: &mut dyn FnMut(&[i64])) {
    let Some(step) = book.steps.get(chosen.len()) else {
        visit(chosen);
        return;
    };
    for quantity in 0..=i64::from(step.quantity) {
        chosen.push(quantity);
        for_each_choice(book, chosen, visit);
        chosen.pop();
    }
}

/// Whether buys equal sells in every hour of the day, steps and blocks together.
fn balances(book: &Book, set: u32, quantities: &[i64]) -> bool {
    let mut surplus = [0i64; 24];
    let signed = |side: Side, quantity: i64| match side {
        Side::Buy => quantity,
        Side::Sell => -quantity,
    };
    for (step, &quantity) in book.steps.iter().zip(quantities) {
        surplus[step.hour as usize - 1] += signed(step.side, quantity);
    }
    for (position, block) in book.blocks.iter().enumerate() {
        if (set >> position) & 1 == 1 {
            for hour in (1..=HOURS).filter(|&hour| block.has_hour(hour)) {
                surplus[hour as usize - 1] += signed(block.side, i64::from(block.quantity));
            }
        }
    }
    book.hours.iter().all(|&hour| surplus[hour as usize - 1] == 0)
}
