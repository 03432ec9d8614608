//! The shift of a set's prices: the middle first, and only where a block misses its limit
//! there the end of the good shifts that is nearest to it, by bisection.

use super::hours::Hours;
use super::root::prices_at;
use super::ByHour;

const MIDDLE: u32 = 500;
const LAST: u32 = 1_000;

/// The prices at the shift nearest the middle at which neither a sell nor a buy misses its
/// limit, where there is one. Sells keep their limits at every higher shift, buys at every
/// lower one.
pub fn kept_prices<const ROOM: usize>(
    hours: &Hours<ROOM>,
    places: &ByHour<u16>,
    sells_miss: impl Fn(&ByHour<u32>) -> bool,
    buys_miss: impl Fn(&ByHour<u32>) -> bool,
) -> Option<ByHour<u32>> {
    let middle = prices_at(hours, places);
    let at = |t: u32| shifted_prices(hours, places, t);
    let t = match (sells_miss(&middle), buys_miss(&middle)) {
        (false, false) => return Some(middle),
        (true, true) => return None,
        (true, false) => first_from(MIDDLE + 1, LAST, |t| !sells_miss(&at(t))),
        // The last at which no buy misses stands before the first at which one does.
        (false, true) => first_from(0, MIDDLE, |t| buys_miss(&at(t))).checked_sub(1)?,
    };
    (t <= LAST).then(|| at(t)).filter(|prices| !sells_miss(prices) && !buys_miss(prices))
}

/// The prices of all hours at a shift.
fn shifted_prices<const ROOM: usize>(
    hours: &Hours<ROOM>,
    places: &ByHour<u16>,
    t: u32,
) -> ByHour<u32> {
    std::array::from_fn(|h| {
        let (low, high) = (hours.low(h, places[h]), hours.high(h, places[h]));
        low + (high - low) * t / LAST
    })
}

/// The first of the numbers from one to another that passes a test, as all behind it do; the
/// one behind the last where none does.
fn first_from(from: u32, to: u32, passes: impl Fn(u32) -> bool) -> u32 {
    let (mut from, mut end) = (from, to + 1);
    while from < end {
        let between = from + (end - from) / 2;
        if passes(between) {
            end = between;
        } else {
            from = between + 1;
        }
    }
    from
}
