//! The binding's answers in the words of this package.

use auction::{Price, Refusal};
use auction_listing::paper::HourAnswer;

pub fn hour_answer(answer: Result<Price, Refusal>) -> HourAnswer {
    match answer {
        Ok(Price::Clears { low, high, price }) => HourAnswer::Cleared { low, high, price },
        Ok(Price::DoesNotClear) => HourAnswer::NotClearing,
        Err(refusal) => HourAnswer::Refused(refusal.number() as u8),
    }
}
