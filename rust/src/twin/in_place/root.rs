//! The prices that losses are counted at, by the proved code's rule.

use super::hours::Hours;
use super::orders::{Block, Day, Orders, CHANGED};
use super::ByHour;

/// Times that the prices are looked at, and moves before each.
const LOOKS: u32 = 8;
const MOVES: u32 = 7;

/// The hours of a block as the day counts them.
#[derive(Clone)]
pub struct Mask {
    /// All ones at each hour.
    pub hours: ByHour<u32>,
    /// All ones where hour 3 counts once more.
    again: u32,
}

impl Mask {
    pub fn of(block: &Block, day: &Day) -> Mask {
        let hours: ByHour<u32> = std::array::from_fn(|h| 0u32.wrapping_sub((block.hours >> h) & 1));
        Mask { hours, again: hours[CHANGED] & day.again }
    }

    /// The sum of prices over the hours.
    pub fn sum(&self, prices: &ByHour<u32>) -> u32 {
        let once = prices.iter().zip(&self.hours).map(|(price, mask)| price & mask);
        once.sum::<u32>() + (prices[CHANGED] & self.again)
    }
}

/// The price of each hour at its place.
pub fn prices_at<const ROOM: usize>(hours: &Hours<ROOM>, places: &ByHour<u16>) -> ByHour<u32> {
    std::array::from_fn(|h| hours.price(h, places[h]))
}

/// The prices that the search goes by: of the empty set's own and those after some moves
/// the first at which it loses least.
pub fn prices<const ROOM: usize>(orders: &Orders, hours: &Hours<ROOM>) -> ByHour<u32> {
    let masks: Vec<Mask> = orders.blocks.iter().map(|b| Mask::of(b, &orders.day)).collect();
    let mut trail = Trail::new(orders, hours, &masks);
    let mut best = trail.root;
    let mut least = trail.empty_loss();
    for _ in 0..LOOKS {
        (0..MOVES).for_each(|_| trail.go_on());
        let loss = trail.empty_loss();
        if loss < least {
            (best, least) = (trail.root, loss);
        }
    }
    best
}

/// Where the prices of hours without steps are kept: between those of the blocks, where prices
/// can give way. What such an hour itself would pay lies far from all of them.
struct Held {
    least: u32,
    most: u32,
    /// The hours without steps.
    hours: ByHour<bool>,
}

impl Held {
    fn of<const ROOM: usize>(orders: &Orders, hours: &Hours<ROOM>) -> Held {
        let prices = || orders.blocks.iter().map(|block| block.price);
        let is_empty = |h: usize| {
            let off = hours.off[h];
            orders.shifts && (hours.low(h, off), hours.high(h, off)) == (1, 300_000)
        };
        Held {
            least: prices().min().unwrap_or(300_000),
            most: prices().max().unwrap_or(0),
            hours: std::array::from_fn(is_empty),
        }
    }

    fn apply(&self, prices: ByHour<u32>) -> ByHour<u32> {
        std::array::from_fn(|h| match self.hours[h] {
            true => prices[h].min(self.most).max(self.least),
            false => prices[h],
        })
    }
}

/// Prices on their way from the empty set's own towards those at the average of the places
/// so far at which the blocks that gain are taken.
struct Trail<'a, const ROOM: usize> {
    orders: &'a Orders,
    hours: &'a Hours<ROOM>,
    masks: &'a [Mask],
    root: ByHour<u32>,
    /// The sum of `count` places.
    sum: ByHour<u32>,
    count: u32,
    /// The last places, and which blocks move them on: sells that gain, buys that do not.
    places: ByHour<u32>,
    moving: Vec<bool>,
    held: Held,
}

impl<'a, const ROOM: usize> Trail<'a, ROOM> {
    fn new(orders: &'a Orders, hours: &'a Hours<ROOM>, masks: &'a [Mask]) -> Self {
        let held = Held::of(orders, hours);
        Trail {
            orders,
            hours,
            masks,
            root: held.apply(prices_at(hours, &hours.off)),
            held,
            sum: hours.off.map(u32::from),
            count: 1,
            places: [0; 24],
            moving: vec![false; masks.len()],
        }
    }

    fn go_on(&mut self) {
        for (i, block) in self.orders.blocks.iter().enumerate() {
            let mask = &self.masks[i];
            let moves = block.limit <= mask.sum(&self.root);
            if moves != self.moving[i] {
                self.moving[i] = moves;
                let sign = if moves { block.quantity } else { block.quantity.wrapping_neg() };
                for h in 0..24 {
                    self.places[h] = self.places[h].wrapping_add(sign & mask.hours[h]);
                }
            }
        }
        for h in 0..24 {
            self.sum[h] += self.places[h];
        }
        self.count += 1;
        let mean = self.sum.map(|sum| average(sum, self.count));
        let there = self.held.apply(prices_at(self.hours, &mean));
        for h in 0..24 {
            self.root[h] = nearer(self.root[h], there[h]);
        }
    }

    /// What the empty set loses at the prices: the gaps at its places, and what the blocks
    /// would gain.
    fn empty_loss(&self) -> u64 {
        let gap = |h: usize| self.hours.gap_at_off(h, self.root[h]);
        let again = if self.orders.day.again == 0 { 0 } else { gap(CHANGED) };
        let gaps = (0..24).map(gap).sum::<u64>() + again;
        let gain = |(block, mask): (&Block, &Mask)| {
            let sum = mask.sum(&self.root);
            let (less, more) = if block.sells { (block.limit, sum) } else { (sum, block.limit) };
            u64::from(block.quantity * more.saturating_sub(less))
        };
        gaps + self.orders.blocks.iter().zip(self.masks).map(gain).sum::<u64>()
    }
}

/// A price a third of the way to another, and at least 1 nearer.
fn nearer(a: u32, b: u32) -> u32 {
    (2 * a + b + if a < b { 2 } else { 0 }) / 3
}

/// `sum / n`, exactly: both are so small that the rounding does not reach the next number.
fn average(sum: u32, n: u32) -> u16 {
    (sum as f32 / n as f32) as u16
}
