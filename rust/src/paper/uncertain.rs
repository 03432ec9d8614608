//! Document 02, P14: the prices of an hour without blocks whose steps' quantities are known
//! only from a low to a high figure.

use super::hour::{middle_price, HIGHEST_PRICE, LOWEST_PRICE};
use super::read::{Side, Step};

const STEP_LENGTH: usize = 16;
const MOST_STEPS: usize = 256;
const MOST_QUANTITY: u32 = 99_999;

/// "17, a list too long or not a multiple of 16 bytes, or a field out of range."
const WRONG_LIST: u8 = 17;

/// A step of a list.
#[derive(Clone, Copy, Debug, PartialEq, Eq)]
pub struct UncertainStep {
    pub side: Side,
    /// Cents per MWh.
    pub price: u32,
    /// The least quantity, in tenths of a MW; 0 is one.
    pub low: u32,
    /// The greatest quantity.
    pub high: u32,
}

impl UncertainStep {
    /// The step with one of its quantities. Its number and portfolio do not matter to a
    /// price.
    pub fn with(self, quantity: u32) -> Step {
        let UncertainStep { side, price, .. } = self;
        Step { record: 0, number: 0, side, hour: 1, portfolio: 1, price, quantity }
    }
}

/// The least and the greatest middle price.
#[derive(Clone, Copy, Debug, PartialEq, Eq)]
pub struct PriceRange {
    pub least: u32,
    pub greatest: u32,
}

/// The steps of a list, or its refusal.
pub fn read_list(list: &[u8]) -> Result<Vec<UncertainStep>, u8> {
    if list.len() > STEP_LENGTH * MOST_STEPS || list.len() % STEP_LENGTH != 0 {
        return Err(WRONG_LIST);
    }
    list.chunks(STEP_LENGTH).map(|bytes| step_of(bytes).ok_or(WRONG_LIST)).collect()
}

/// "each with side, price, low and high in 4 bytes apiece, side and price as in a book and
/// low at most high, both 0 to 99,999"; nothing where a field is out of range.
fn step_of(bytes: &[u8]) -> Option<UncertainStep> {
    let mut fields =
        bytes.chunks(4).map(|four| u32::from_be_bytes([four[0], four[1], four[2], four[3]]));
    let mut next = || fields.next().expect("four fields of 4 bytes");
    let side = match next() {
        0 => Side::Buy,
        1 => Side::Sell,
        _ => return None,
    };
    let step = UncertainStep { side, price: next(), low: next(), high: next() };
    let priced = (LOWEST_PRICE..=HIGHEST_PRICE).contains(&step.price);
    let known = [step.low, step.high].iter().all(|quantity| (0..=MOST_QUANTITY).contains(quantity));
    (priced && known && step.low <= step.high).then_some(step)
}

/// "the least and greatest middle price over all quantities between": every choice of
/// quantities is tried, so the list must have few of them.
pub fn price_range_by_choices(list: &[u8]) -> Result<PriceRange, u8> {
    let list = read_list(list)?;
    let mut chosen: Vec<u32> = list.iter().map(|step| step.low).collect();
    let first = price_of(&list, &chosen);
    let mut range = PriceRange { least: first, greatest: first };
    while next_choice(&list, &mut chosen) {
        let price = price_of(&list, &chosen);
        range.least = range.least.min(price);
        range.greatest = range.greatest.max(price);
    }
    Ok(range)
}

/// Goes to the next choice of quantities, the first step's counting fastest; says whether
/// there was one.
fn next_choice(list: &[UncertainStep], chosen: &mut [u32]) -> bool {
    for (step, quantity) in list.iter().zip(chosen) {
        if *quantity < step.high {
            *quantity += 1;
            return true;
        }
        *quantity = step.low;
    }
    false
}

/// The middle price of the hour with these quantities, one for each step.
pub fn price_of(list: &[UncertainStep], chosen: &[u32]) -> u32 {
    let steps: Vec<Step> =
        list.iter().zip(chosen).map(|(step, &quantity)| step.with(quantity)).collect();
    middle_price(&steps, 0).expect("without blocks an hour clears")
}

/// The same as [`price_range_by_choices`], for any list.
///
/// Where the buys hold less or the sells hold more the price is no higher. So it is least
/// where all buys are low and all sells high, and greatest the other way round.
pub fn price_range(list: &[u8]) -> Result<PriceRange, u8> {
    let list = read_list(list)?;
    let price = |higher: Side| {
        let end = |step: &UncertainStep| if step.side == higher { step.high } else { step.low };
        price_of(&list, &list.iter().map(end).collect::<Vec<u32>>())
    };
    Ok(PriceRange { least: price(Side::Sell), greatest: price(Side::Buy) })
}

/// A part of the answer as one number: 0 the refusal, or 0; 1 the least price, 2 the
/// greatest. 0 where there is none.
pub fn range_part(answer: Result<PriceRange, u8>, part: u32) -> u32 {
    match (part, answer) {
        (0, Err(refusal)) => u32::from(refusal),
        (1, Ok(range)) => range.least,
        (2, Ok(range)) => range.greatest,
        _ => 0,
    }
}
