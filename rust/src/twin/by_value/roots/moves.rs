// Written by `twin_source` from crates/roots/src/moves.rt.
// Prices on their way to those at which the blocks that gain are taken: a third of the way with each move, towards the prices at the average place so far.
// Hour 3 counts `often` times.

use crate::twin::by_value::roots::held::{Bounds, held};
use crate::twin::by_value::roots::losses::Asked;
use crate::twin::by_value::places::added::moved;
use crate::twin::by_value::places::cells::{counted_prices, prices_at};
use crate::twin::by_value::places::layout::{HOURS, LAST_AND_ABOVE};
use crate::twin::by_value::places::limits::price_sum;
use crate::twin::by_value::places::numbers::choose;

// The moves of a round, after which the prices are tried.
pub const ROUND: u32 = 7;

// The moves of all rounds.
pub const MOVES: u32 = 56;

// A list of places with those added at which each block that gains at the prices, as they count, is taken, and no other: a sell that gains moves its hours
// on, a buy that does not.
pub fn added_places(sum: [u32; HOURS], asked: &Asked, root: [u32; HOURS]) -> [u32; HOURS]
{
    let blocks = asked.blocks;
    let counted = counted_prices(root, asked.often);
    let mut places = sum;
    for i in 0..blocks.count {
        let hours = blocks.hours[i];
        let moves = asked.limits[i] <= price_sum(&counted, hours);
        let more = moved(places, hours, choose(moves, blocks.quantities[i], 0));
        places = more;
    }
    places
}

// The places on the average, where n of them are added up; none past the last.
fn averaged(sum: [u32; HOURS], n: u32, last: u32) -> [u32; HOURS]
{
    let mut r = [0; HOURS];
    for h in 0..HOURS {
        r[h] = (sum[h] / n).min(last);
    }
    r
}

// A price a third of the way to another, and at least 1 nearer.
fn nearer(a: u32, b: u32) -> u32
{
    if a < b {
        (2 * a + b + 2) / 3
    } else {
        (2 * a + b) / 3
    }
}

// Prices moved a third of the way to others.
fn closer(a: [u32; HOURS], b: [u32; HOURS]) -> [u32; HOURS]
{
    let mut r = [0; HOURS];
    for h in 0..HOURS {
        r[h] = nearer(a[h], b[h]);
    }
    r
}

// Prices on their way, and the places that they were moved by, added up.
#[derive(Clone, Copy)]
pub struct Trail {
    pub prices: [u32; HOURS],
    pub sum: [u32; HOURS],
}

// A round more, where n places are added up: each move goes towards the prices at the average of the places so far at which the blocks that gain are taken.
pub fn moved_on(unit_prices: &[u32], asked: &Asked, trail: Trail, n: u32, bounds: &Bounds) -> Trail
{
    let last = (unit_prices.len() / HOURS - LAST_AND_ABOVE) as u32;
    let mut root = trail.prices;
    let mut sum = trail.sum;
    for k in n..n + ROUND {
        let more = added_places(sum, asked, root);
        let mean = averaged(more, k + 1, last);
        let next = closer(root, held(prices_at(unit_prices, mean), bounds));
        sum = more;
        root = next;
    }
    Trail { prices: root, sum }
}
