// Written by `twin_source` from crates/shift/src/lib.rt.
// The shift of a set's prices in edition 4: the middle one where it keeps the limits of all its blocks, else the nearest that does, found by bisection. As
// the prices rise a sell keeps its limit once it does, and a buy no longer once it does not: where the buys alone miss theirs the shift lies below the
// middle, where the sells alone do above it. Assumes nothing.

mod sought; // the set whose shift is looked for

use crate::twin::by_value::shift::sought::Sought;
use crate::twin::by_value::places::cells::{counted_prices, shifted_prices};
use crate::twin::by_value::places::layout::{HOURS, LAST_SHIFT, LIMIT, MIDDLE_SHIFT, RUNS, SIDE};
use crate::twin::by_value::places::limits::keeps_limit;
use crate::twin::by_value::places::tables::Tables;

// Whether a block's side is the one that sells, or the one that buys. The side is a bool, since it is what the test of its blocks turns to as prices rise.
fn is_of_side(sells: bool, side: u32) -> bool
{
    if sells { side != 0 } else { side == 0 }
}

// Whether each of the first count blocks that the set holds and that are of the side keeps its limit at these prices.
fn side_keeps(sells: bool, blocks: &[u32], count: usize, set: u32, prices: &[u32]) -> bool
{
    for i in (0..count).rev() {
        let side = blocks[SIDE + i];
        let chosen = (set >> (i as u32)) % 2;
        let meant = is_of_side(sells, side);
        if (chosen == 1) & meant {
            if !keeps_limit(side, blocks[RUNS + i], blocks[LIMIT + i], prices, prices) {
                return false;
            }
        }
    }
    true
}

impl Sought<'_> {
    // Whether the blocks of a side that the set holds keep their limits at shift t.
    fn side_kept_at(&self, sells: bool, t: u32) -> bool
    {
        let prices = shifted_prices(self.tables.unit_prices, self.places, t);
        let counted = counted_prices(prices, self.often);
        side_keeps(
            sells,
            self.tables.blocks,
            self.tables.count as usize,
            self.set,
            &counted,
        )
    }

    // Between two shifts, at the first of which the buys of the set keep their limits and at the last no longer, or its sells not yet and then do: the
    // last shift that is as the first. The two come nearer by halves.
    fn last_before(&self, sells: bool, first: u32, last: u32) -> u32
    {
        let mut from = first;
        let mut to = last;
        // A bisection: its steps are not an index's.
        while from + 1 < to {
            let t = from + (to - from) / 2;
            let kept = self.side_kept_at(sells, t);
            if kept == sells {
                to = t;
            } else {
                from = t;
            }
        }
        from
    }

    // The shift where the buys miss their limits in the middle: the last that they keep, if the sells keep it.
    fn lower_shift(&self) -> Option<u32>
    {
        if !self.side_kept_at(false, 0) {
            return None;
        }
        let t = self.last_before(false, 0, MIDDLE_SHIFT);
        if !self.side_kept_at(true, t) {
            return None;
        }
        Some(t)
    }

    // The shift where the sells miss their limits in the middle: the first that they keep, if the buys keep it.
    fn higher_shift(&self) -> Option<u32>
    {
        if !self.side_kept_at(true, LAST_SHIFT) {
            return None;
        }
        let t = self.last_before(true, MIDDLE_SHIFT, LAST_SHIFT) + 1;
        if !self.side_kept_at(false, t) {
            return None;
        }
        Some(t)
    }
}

// THE SHIFT: the one nearest the middle, of two the smaller, at which each block that the set holds keeps its limit; or none.
pub fn shift_of(tables: &Tables, set: u32, places: [u32; HOURS], often: u32) -> Option<u32>
{
    let sought = Sought {
        tables,
        set,
        places,
        often,
    };
    let sold = sought.side_kept_at(true, MIDDLE_SHIFT);
    let bought = sought.side_kept_at(false, MIDDLE_SHIFT);
    if sold & bought {
        return Some(MIDDLE_SHIFT);
    }
    if sold {
        return sought.lower_shift();
    }
    if bought {
        return sought.higher_shift();
    }
    None
}
