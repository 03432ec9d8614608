// Written by `twin_source` from crates/chains/src/steps.rt.
// Cause 11: more than 256 steps of a portfolio in one hour. Assumes nothing.

use crate::twin::by_value::chains::bounds::{HOUR_NUMBERS, MOST_STEPS_IN_HOUR, PORTFOLIO_NUMBERS};
use crate::twin::by_value::chains::following::chained;
use crate::twin::by_value::records::{first_step, hour_byte, portfolio_of};

// A counter for each hour and portfolio.
const STEP_COUNTERS: usize = HOUR_NUMBERS * PORTFOLIO_NUMBERS;

// Cause 11 along the steps, whatever the edition: each is counted for its hour and portfolio. One for no hour, which is cause 4, is not counted.
pub fn has_more_steps(book: &[u8]) -> bool
{
    let mut counts = [0; STEP_COUNTERS];
    for i in chained(book, first_step(book)) {
        let hour = usize::from(hour_byte(book, i));
        if hour < HOUR_NUMBERS {
            let at = hour * PORTFOLIO_NUMBERS + usize::from(portfolio_of(book, i));
            if MOST_STEPS_IN_HOUR <= counts[at] {
                return true;
            }
            counts[at] += 1;
        }
    }
    false
}
