// Written by `twin_source` from crates/places/src/cells.rt.
// What the tables have at the hours' places: gaps, prices, and the least gaps within reach. The price table has the unit price of the N before each
// place: H at a place is its own entry, L the next one, and the price is the middle of the two, or in edition 4 a shifted one. An hour that has a buy of
// 2 at 5000, a sell of 1 at 3000 and no block that buys has the row 5000, 5000, 3000, 1, ..: at place 0 its price is 5000, at place 1 the middle of 5000
// and 3000.

use crate::twin::by_value::places::layout::{CHANGE_ROW, HOURS, LAST_SHIFT};

// The sum of the gaps of all hours at their places, each hour once; none where an hour does not clear at its place.
fn gaps_at(gap: &[u32], first: &[u32], last: &[u32], places: [u32; HOURS]) -> Option<u64>
{
    let width = gap.len() / HOURS;
    let mut sum: u64 = 0;
    for h in 0..HOURS {
        let place = places[h];
        if (place < first[h]) | (last[h] < place) {
            return None;
        }
        let cell = gap[h * width + (place as usize)];
        sum += u64::from(cell);
    }
    Some(sum)
}

// A price of each hour at its place, made of L and H there.
fn prices_by<F: Fn(u32, u32) -> u32>(
    unit_prices: &[u32],
    places: [u32; HOURS],
    price: F,
) -> [u32; HOURS]
{
    let width = unit_prices.len() / HOURS;
    let mut prices = [0; HOURS];
    for h in 0..HOURS {
        let at = h * width + (places[h] as usize);
        prices[h] = price(unit_prices[at + 1], unit_prices[at]);
    }
    prices
}

// The middle price of each hour at its place.
pub fn prices_at(unit_prices: &[u32], places: [u32; HOURS]) -> [u32; HOURS]
{
    prices_by(unit_prices, places, |low, high| (low + high) / 2)
}

// H of each hour at its place.
pub fn highs_at(unit_prices: &[u32], places: [u32; HOURS]) -> [u32; HOURS]
{
    prices_by(unit_prices, places, |_, high| high)
}

// L of each hour at its place.
pub fn lows_at(unit_prices: &[u32], places: [u32; HOURS]) -> [u32; HOURS]
{
    prices_by(unit_prices, places, |low, _| low)
}

// The price at shift t from L up to H; L where H is not more.
fn shifted_price(t: u32, low: u32, high: u32) -> u32
{
    low + high.saturating_sub(low) * t / LAST_SHIFT
}

// The price at shift t of each hour at its place.
pub fn shifted_prices(unit_prices: &[u32], places: [u32; HOURS], t: u32) -> [u32; HOURS]
{
    prices_by(unit_prices, places, |low, high| shifted_price(t, low, high))
}

// How often the hour of a row counts.
pub fn times_of(row: usize, often: u32) -> u64
{
    if row == CHANGE_ROW {
        u64::from(often)
    } else {
        1
    }
}

// The prices as they count, hour 3's so often.
pub fn counted_prices(prices: [u32; HOURS], often: u32) -> [u32; HOURS]
{
    let mut counted = prices;
    counted[CHANGE_ROW] = often * prices[CHANGE_ROW];
    counted
}

// The sum of the hours' least gaps over the places from `from` to `to`, each hour once. Its loop stands beside that of gaps_at, which can end early: one
// for both would be no plainer.
fn least_gaps(gap: &[u32], turn: &[u32], from: [u32; HOURS], to: [u32; HOURS]) -> u64
{
    let width = gap.len() / HOURS;
    let mut sum: u64 = 0;
    for h in 0..HOURS {
        let place = turn[h].max(from[h]).min(to[h]);
        sum += u64::from(gap[h * width + (place as usize)]);
    }
    sum
}

// A sum over the hours with hour 3's own number so often.
fn counted_sum(sum: u64, own: u32, often: u32) -> u64
{
    sum - u64::from(own) + u64::from(often) * u64::from(own)
}

// The sum of the gaps of all hours at their places, hour 3's so often; none where an hour does not clear at its place.
pub fn counted_gaps(
    gap: &[u32],
    first: &[u32],
    last: &[u32],
    places: [u32; HOURS],
    often: u32,
) -> Option<u64>
{
    let width = gap.len() / HOURS;
    let sum = gaps_at(gap, first, last, places)?;
    let own = gap[CHANGE_ROW * width + (places[CHANGE_ROW] as usize)];
    Some(counted_sum(sum, own, often))
}

// The sum of the hours' least gaps over the places from `from` to `to`, hour 3's so often.
pub fn counted_least_gaps(
    gap: &[u32],
    turn: &[u32],
    from: [u32; HOURS],
    to: [u32; HOURS],
    often: u32,
) -> u64
{
    let width = gap.len() / HOURS;
    let once = least_gaps(gap, turn, from, to);
    let place = turn[CHANGE_ROW].max(from[CHANGE_ROW]).min(to[CHANGE_ROW]);
    let own = gap[CHANGE_ROW * width + (place as usize)];
    counted_sum(once, own, often)
}
