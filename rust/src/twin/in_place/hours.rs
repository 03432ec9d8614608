//! The tables of the hours over their places. A place is what the taken blocks
//! sell and the left-out blocks would buy in the hour.

use super::orders::{Orders, Step};
use super::ByHour;

/// A row for each hour, with room for its places from 0 on and the one after the last.
type Table<const ROOM: usize> = Box<ByHour<[u32; ROOM]>>;

/// A table of zeros, made where it stays: it is too large to pass over a small stack.
fn empty_table<const ROOM: usize>() -> Table<ROOM> {
    let rows = vec![[0; ROOM]; 24].into_boxed_slice();
    rows.try_into().expect("24 rows")
}

pub struct Hours<const ROOM: usize> {
    /// What the buy blocks buy together.
    pub off: ByHour<u16>,
    /// What all blocks trade together: the last place that can be reached.
    pub most: ByHour<u16>,
    /// The first and the last place at which the hour clears.
    pub first: ByHour<u16>,
    pub last: ByHour<u16>,
    /// The place without a gap.
    pub turn: ByHour<u16>,
    /// The unit price before each place.
    unit: Table<ROOM>,
    /// The price at each place.
    price: Table<ROOM>,
    /// The gap at each place.
    gap: Table<ROOM>,
    /// The steps of an hour, sorted.
    sorted: Vec<(u32, u32)>,
}

impl<const ROOM: usize> Default for Hours<ROOM> {
    fn default() -> Self {
        Hours {
            off: [0; 24],
            most: [0; 24],
            first: [0; 24],
            last: [0; 24],
            turn: [0; 24],
            unit: empty_table(),
            price: empty_table(),
            gap: empty_table(),
            sorted: Vec::new(),
        }
    }
}

impl<const ROOM: usize> Hours<ROOM> {
    /// The price of an hour at a place.
    pub fn price(&self, h: usize, place: u16) -> u32 {
        self.price[h][usize::from(place)]
    }

    /// H of an hour at a place.
    pub fn high(&self, h: usize, place: u16) -> u32 {
        self.unit[h][usize::from(place)]
    }

    /// L of an hour at a place.
    pub fn low(&self, h: usize, place: u16) -> u32 {
        self.unit[h][usize::from(place) + 1]
    }

    /// The gap of an hour at a place at which it clears.
    pub fn gap(&self, h: usize, place: u16) -> u32 {
        self.gap[h][usize::from(place)]
    }

    /// The gap of an hour at the place of the empty set, for any price.
    pub fn gap_at_off(&self, h: usize, price: u32) -> u64 {
        let (off, unit) = (usize::from(self.off[h]), &self.unit[h]);
        let above = &unit[off + 1..=usize::from(self.last[h])];
        let below = &unit[usize::from(self.first[h]) + 1..=off];
        let up = above.iter().take_while(|&&unit| unit > price).map(|unit| unit - price);
        let down = below.iter().rev().take_while(|&&unit| unit < price).map(|unit| price - unit);
        up.chain(down).map(u64::from).sum()
    }

    /// The unit prices and the prices of every hour, up to the last place in reach.
    pub fn fill_prices(&mut self, orders: &Orders) {
        (self.off, self.most) = ([0; 24], [0; 24]);
        for block in &orders.blocks {
            for h in 0..24 {
                let quantity = ((block.hours >> h) & 1) as u16 * block.quantity as u16;
                self.off[h] += if block.sells { 0 } else { quantity };
                self.most[h] += quantity;
            }
        }
        for h in 0..24 {
            self.fill_hour(h, &orders.steps[orders.ends[h]..orders.ends[h + 1]]);
        }
    }

    fn fill_hour(&mut self, h: usize, steps: &[Step]) {
        let total = |sells| {
            let of_side = steps.iter().filter(|step| step.sells == sells);
            of_side.map(|step| u64::from(step.quantity)).sum::<u64>()
        };
        let (buys, sells) = (total(false), total(true));
        let (off, most) = (u64::from(self.off[h]), u64::from(self.most[h]));
        self.first[h] = off.saturating_sub(sells) as u16;
        self.last[h] = most.min(off + buys) as u16;
        self.sorted.clear();
        self.sorted.extend(steps.iter().map(|step| (step.price, step.quantity)));
        self.sorted.sort_unstable_by_key(|&(price, _)| std::cmp::Reverse(price));
        let unit = &mut self.unit[h][..self.most[h] as usize + 2];
        fill_units(unit, &self.sorted, off, sells);
        let price = &mut self.price[h][..unit.len() - 1];
        for (price, pair) in price.iter_mut().zip(unit.windows(2)) {
            *price = (pair[0] + pair[1]) / 2;
        }
    }

    /// The gaps of every hour at the root prices, over the places at which it clears.
    pub fn fill_gaps(&mut self, root: &ByHour<u32>) {
        for (h, &price) in root.iter().enumerate() {
            let (first, last) = (usize::from(self.first[h]), usize::from(self.last[h]));
            let (unit, gap) = (&self.unit[h][..=last], &mut self.gap[h][..=last]);
            let turn = first + unit[first + 1..].partition_point(|&unit| unit > price);
            self.turn[h] = turn as u16;
            gap[turn] = 0;
            for place in turn + 1..=last {
                gap[place] = gap[place - 1] + (price - unit[place]);
            }
            for place in (first..turn).rev() {
                gap[place] = gap[place + 1] + (unit[place + 1] - price);
            }
        }
    }
}

/// The unit price before each place: place i stands after `sells + i - off` units of
/// the steps in falling price. Before the first unit it is the highest price there is,
/// after the last one the lowest.
fn fill_units(unit: &mut [u32], sorted: &[(u32, u32)], off: u64, sells: u64) {
    let mut place = 0;
    let mut fill_to = |end: u64, price: u32| {
        let end = end.min(unit.len() as u64) as usize;
        if place < end {
            unit[place..end].fill(price);
            place = end;
        }
    };
    // The place after the unit number x is x + off - sells + 1.
    fill_to((off + 1).saturating_sub(sells), 300_000);
    let mut units = 0;
    for &(price, quantity) in sorted {
        units += u64::from(quantity);
        fill_to((units + off + 1).saturating_sub(sells), price);
    }
    fill_to(u64::MAX, 1);
}
