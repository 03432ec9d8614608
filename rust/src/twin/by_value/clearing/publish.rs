// Written by `twin_source` from crates/clearing/src/publish.rt.
// The publication: what the orders of each hour get at its price, the welfare, and with them and the day the result's
// bytes. Assumes nothing.

use crate::twin::by_value::fields::hours::{change_weight, counted_hours};
use crate::twin::by_value::orders::layout::{HOURS, STEP_PLACES};
use crate::twin::by_value::orders::{Blocks, HourSteps, Steps};
use crate::twin::by_value::places::cells::times_of;
use crate::twin::by_value::places::layout::CHANGE_ROW;
use crate::twin::by_value::pricing::BIAS;
use crate::twin::by_value::pricing::blocks::{Trades, trades_of};
use crate::twin::by_value::result::{block_values, with_rows, write_result};
use crate::twin::by_value::search::Day;
use crate::twin::by_value::shares::{amounts_at, share_out};

// What quantities are worth: the value of the buys and the cost of the sells.
#[derive(Clone, Copy)]
pub struct Sums {
    pub value: u64,
    pub cost: u64,
}

impl Sums {
    // What one quantity more is worth.
    fn add(mut self, side: u8, worth: u64) -> Sums
    {
        if side == 0 {
            self.value += worth;
        } else {
            self.cost += worth;
        }
        self
    }
}

// The sums of an hour's steps with a quantity for each.
fn sums_of(steps: &HourSteps, values: &[u32]) -> Sums
{
    let mut sums = Sums { value: 0, cost: 0 };
    for i in 0..steps.sides.len() {
        let worth = u64::from(values[i]) * u64::from(steps.prices[i]);
        sums = sums.add(steps.sides[i], worth);
    }
    sums
}

// What the orders of an hour get, into out, and its sums; rests is lent to work in.
fn fill_hour(
    steps: &HourSteps,
    trades: Trades,
    price: u32,
    out: &mut [u32],
    rests: &mut [u32],
) -> Sums
{
    let net = (BIAS + trades.sales - trades.buys) as u32;
    let amounts = amounts_at(steps, net, price);
    share_out(steps, price, amounts, out, rests);
    sums_of(steps, out)
}

// The same for hour h + 1, into the places of its steps in values.
fn put_hour(
    steps: &Steps,
    h: usize,
    trades: Trades,
    price: u32,
    values: &mut [u32],
    rests: &mut [u32],
) -> Sums
{
    let from = steps.ends[h] as usize;
    let to = steps.ends[h + 1] as usize;
    fill_hour(
        &steps.hour(h),
        trades,
        price,
        &mut values[from..to],
        &mut rests[from..to],
    )
}

// The columns of the blocks that there are, without the room behind them.
#[derive(Clone, Copy)]
struct BlockFronts<'a> {
    records: &'a [u16],
    sides: &'a [u8],
    hours: &'a [u32],
    prices: &'a [u32],
    quantities: &'a [u32],
}

// What a block is worth on a day of so many hours: its quantity times its limit over all its hours, if it is chosen.
fn block_worth(day: u8, chosen: bool, hours: u32, price: u32, quantity: u32) -> u64
{
    if chosen {
        let limit = price * counted_hours(day, hours);
        return u64::from(quantity * limit);
    }
    0
}

// The value and the cost of the blocks that the set holds, the lowest bit for the first block, on a day of so many hours.
fn blocks_worth(day: u8, blocks: &BlockFronts, set: u32) -> Sums
{
    let mut sums = Sums { value: 0, cost: 0 };
    let mut rest = set;
    for i in 0..blocks.sides.len() {
        let chosen = rest % 2 == 1;
        let worth = block_worth(
            day,
            chosen,
            blocks.hours[i],
            blocks.prices[i],
            blocks.quantities[i],
        );
        sums = sums.add(blocks.sides[i], worth);
        rest /= 2;
    }
    sums
}

// What the orders of each hour get, hour after hour, into values, and the value and the cost of all of it, hour 3's so often; rests is lent to work in.
fn fill_hours(
    often: u32,
    steps: &Steps,
    blocks: &BlockFronts,
    set: u32,
    middles: [u32; HOURS],
    values: &mut [u32],
    rests: &mut [u32],
) -> Sums
{
    let mut value: u64 = 0;
    let mut cost: u64 = 0;
    for h in 0..HOURS {
        let trades = trades_of(
            blocks.sides,
            blocks.hours,
            blocks.quantities,
            set,
            (h + 1) as u32,
        );
        let sums = put_hour(steps, h, trades, middles[h], values, rests);
        let times = times_of(h, often);
        value += times * sums.value;
        cost += times * sums.cost;
    }
    Sums { value, cost }
}

// A column of the hours with 0 for hour 3 where it does not count.
fn where_counted(mut column: [u32; HOURS], often: u32) -> [u32; HOURS]
{
    if often == 0 {
        column[CHANGE_ROW] = 0;
    }
    column
}

// The row of each record: what its order gets, a block's quantity if the set holds it, else 0.
fn rows_of(records: &[u16], values: &[u32], blocks: &BlockFronts, set: u32) -> [u32; STEP_PLACES]
{
    let m = blocks.records.len();
    let bvalues = block_values(m, blocks.quantities, set);
    let rows = with_rows([0; STEP_PLACES], blocks.records, &bvalues[..m]);
    with_rows(rows, records, values)
}

// The result of a day of so many hours, out of the steps, the blocks' columns, the set and its day.
fn publish_columns(
    day: u8,
    count: usize,
    steps: &Steps,
    blocks: &BlockFronts,
    set: u32,
    found: Day,
    res: &mut [u8],
)
{
    let n = steps.ends[HOURS] as usize;
    let often = change_weight(day);
    let mut values = [0; STEP_PLACES];
    let mut rests = [0; STEP_PLACES];
    let sums = fill_hours(
        often,
        steps,
        blocks,
        set,
        found.prices,
        &mut values,
        &mut rests,
    );
    let worth = blocks_worth(day, blocks, set);
    let welfare = (sums.value + worth.value).saturating_sub(sums.cost + worth.cost);
    let rows = rows_of(&steps.records[..n], &values[..n], blocks, set);
    let price_column = where_counted(found.prices, often);
    let traded_column = where_counted(found.quantities, often);
    write_result(res, count, welfare, price_column, traded_column, &rows);
}

// The result of a book of so many records on a day of so many hours: its steps, its blocks, the published set and its day.
pub fn publish(
    day: u8,
    count: usize,
    steps: &Steps,
    blocks: &Blocks,
    set: u32,
    found: Day,
    res: &mut [u8],
)
{
    let m = blocks.count;
    let fronts = BlockFronts {
        records: &blocks.records[..m],
        sides: &blocks.sides[..m],
        hours: &blocks.hours[..m],
        prices: &blocks.prices[..m],
        quantities: &blocks.quantities[..m],
    };
    publish_columns(day, count, steps, &fronts, set, found, res);
}
