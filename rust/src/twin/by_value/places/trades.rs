// Written by `twin_source` from crates/places/src/trades.rt.
// What the blocks of a decided set sell and buy in each hour, and what is traded there with the steps.

use crate::twin::by_value::places::added::moved_where;
use crate::twin::by_value::places::layout::{HOURS, SIDE};
use crate::twin::by_value::orders::DaySteps;
use crate::twin::by_value::pricing::execution::traded_at;

// What blocks sell and buy in each hour.
#[derive(Clone, Copy)]
pub struct Trades {
    pub sales: [u32; HOURS],
    pub buys: [u32; HOURS],
}

// What the first count blocks that the set holds sell and buy.
pub fn set_trades(blocks: &[u32], count: usize, set: u32) -> Trades
{
    let mut sales = [0; HOURS];
    let mut buys = [0; HOURS];
    for i in (0..count).rev() {
        let chosen = (set >> (i as u32)) % 2 == 1;
        let side = blocks[SIDE + i];
        let sold = moved_where(chosen & (side != 0), sales, blocks, i);
        let bought = moved_where(chosen & (side == 0), buys, blocks, i);
        sales = sold;
        buys = bought;
    }
    Trades { sales, buys }
}

// What is traded in each hour at its price.
pub fn hours_traded(steps: &DaySteps, trades: Trades, middles: [u32; HOURS]) -> [u32; HOURS]
{
    let sales = trades.sales;
    let buys = trades.buys;
    let mut traded = [0; HOURS];
    for h in 0..HOURS {
        traded[h] = traded_at(&steps.hour(h), sales[h], buys[h], middles[h]);
    }
    traded
}
