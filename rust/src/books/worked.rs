//! The days of document 01 that are checked by hand, and some of document 02. Numbers
//! and portfolios follow decision 23: the base book's steps are 1 to 4, portfolio 1 buys,
//! portfolio 2 sells, portfolio 3 owns the blocks.

use super::builder::{LinkOrder, Orders};
use crate::paper::Side::{Buy, Sell};

/// The cases S1 to S10 by name.
pub fn worked_days() -> Vec<(&'static str, Orders)> {
    let with_block = |price| base().block(Sell, &[1, 2], price, 50, 3);
    vec![
        ("S1", base()),
        ("S2", with_block(3_900)),
        ("S3", with_block(3_000)),
        ("S4", with_block(3_001)),
        ("S5", with_block(2_900)),
        ("S6", with_block(2_900).block(Sell, &[1, 2], 2_900, 50, 3)),
        ("S7", Orders::new().step(Buy, 1, 4_001, 10, 1).step(Sell, 1, 3_000, 10, 2)),
        ("S8", Orders::new().step(Buy, 1, 300_000, 100, 1).step(Sell, 1, 2_000, 60, 2)),
        ("S9", Orders::new().step(Sell, 1, 1, 100, 2)),
        ("S10", shared_sells()),
    ]
}

fn base() -> Orders {
    base_in([1, 2])
}

/// The base book's steps in two other hours.
fn base_in(hours: [u32; 2]) -> Orders {
    let buy_and_sell = |orders: Orders, hour| {
        orders.step(Buy, hour, 5_000, 100, 1).step(Sell, hour, 3_000, 100, 2)
    };
    hours.into_iter().fold(Orders::new(), buy_and_sell)
}

/// The sell steps have the numbers 1 and 2, so the buy has 3.
fn shared_sells() -> Orders {
    Orders::new()
        .step(Sell, 1, 3_000, 60, 2)
        .step(Sell, 1, 3_000, 60, 2)
        .step(Buy, 1, 5_000, 100, 1)
}

/// Hours with groups of both sides at one price, mixed along the chain, in which one side is
/// served in part.
///
/// Hour 1 sells 2, 1 and 1 and buys 1 and 2 at 4000: the sells share 3, of which each has at
/// least 1, 0 and 0 and the remainders are 2, 3 and 3, so that each gets 1. Hour 2 buys 7, 5, 5
/// and 3 and sells 4 and 6 at 5000: the buys share 10, of which each has at least 3, 2, 2 and 1
/// and the remainders are equal, so that the first two get one more. Hour 3 sells 1 and 3 at
/// 3000, of which 2 are bought at 5000: with equal remainders again 1 and 1.
pub fn fair_shares() -> Orders {
    Orders::new()
        .step(Buy, 1, 4_000, 1, 1)
        .step(Sell, 1, 4_000, 2, 2)
        .step(Sell, 1, 4_000, 1, 4)
        .step(Buy, 2, 5_000, 7, 1)
        .step(Buy, 1, 4_000, 2, 3)
        .step(Sell, 2, 5_000, 4, 2)
        .step(Sell, 1, 4_000, 1, 2)
        .step(Buy, 2, 5_000, 5, 3)
        .step(Buy, 2, 5_000, 5, 1)
        .step(Sell, 2, 5_000, 6, 4)
        .step(Buy, 2, 5_000, 3, 3)
        .step(Sell, 3, 3_000, 1, 2)
        .step(Sell, 3, 3_000, 3, 4)
        .step(Buy, 3, 5_000, 2, 1)
}

/// What the steps of [`fair_shares`] get, in rising number.
pub const FAIR_SHARES_ROWS: [u32; 14] = [1, 1, 1, 4, 2, 4, 1, 3, 2, 6, 1, 1, 1, 2];

/// A book of the head alone.
pub fn head_alone() -> Orders {
    Orders::new()
}

/// A sell block and a buy block of one size, alone on the same hours.
pub fn opposite_blocks() -> Orders {
    Orders::new().block(Sell, &[1, 2], 3_000, 50, 3).block(Buy, &[1, 2], 5_000, 50, 3)
}

/// The numbers of the blocks taken in [`thirty_two_blocks`].
pub const THIRTY_TWO_BLOCKS_TAKEN: [u32; 10] = [1, 4, 7, 10, 13, 16, 19, 22, 25, 28];

/// A full set of blocks whose outcome is plain without listing 2^32 sets.
///
/// Each hour buys 1000 at 5000 and sells 1000 at 3000, so its price is 3000
/// with N from 1 to 999, 4000 with N = 0 and 5000 with N from -999 to -1.
/// Nineteen sell blocks of 50 come to 950 and thirteen buy blocks to 650, so N
/// stays between these. The buys at 2500 are never within their limit, since no
/// price is below 3000. Without them N is not below 0 and no price is above
/// 4000, so the nine sells at 4500 are never within theirs. The ten sells at
/// 2000 to 3000 are always within theirs, each adds (3000 - price) x 50 in each
/// of its hours, and the two at 3000, which add nothing, are taken by the equal
/// rule.
pub fn thirty_two_blocks() -> Orders {
    let mut orders = Orders::new();
    for hour in 1..=24 {
        orders = orders.step(Buy, hour, 5_000, 1_000, 1).step(Sell, hour, 3_000, 1_000, 2);
    }
    let whole_day: Vec<u32> = (1..=24).collect();
    let peak: Vec<u32> = (9..=20).collect();
    let night: Vec<u32> = (1..=6).collect();
    let evening = [18, 19, 20, 21];
    let two_parts = [1, 2, 3, 22, 23];
    // No good block has hours 7, 8 and 24, so they stay at 4000.
    let good: [(&[u32], u32); 10] = [
        (&peak, 2_000),
        (&peak, 3_000),
        (&night, 2_500),
        (&night, 2_900),
        (&evening, 2_000),
        (&evening, 2_100),
        (&two_parts, 1),
        (&two_parts, 3_000),
        (&[1, 2], 2_999),
        (&[12, 13], 2_000),
    ];
    for position in 0..32u32 {
        let portfolio = 3 + position / 5;
        orders = match (position % 3, position / 3) {
            (0, index) if index < 10 => {
                let (hours, price) = good[index as usize];
                orders.block(Sell, hours, price, 50, portfolio)
            }
            (1, index) if index < 9 => orders.block(Sell, &peak, 4_500, 50, portfolio),
            _ => orders.block(Buy, &whole_day, 2_500, 50, portfolio),
        };
    }
    orders
}

/// The quantities and prices of the blocks of [`edition_2_day`], all sells.
pub const EDITION_2_BLOCKS: [(u32, u32); 10] = [
    (250, 2_900),
    (200, 2_950),
    (150, 2_800),
    (100, 2_000),
    (51, 2_900),
    (250, 2_990),
    (120, 2_900),
    (60, 2_700),
    (90, 2_500),
    (75, 2_850),
];

/// A day of edition 2: ten blocks of one portfolio, of 51 to 250.
///
/// Hours 1 and 2 each buy 1346 at 5000 and sell 1346 at 3000, so their price is 4000
/// with N = 0, 3000 with N from 1 to 1345 and 1500 with N = 1346. The ten blocks sell 1346
/// together, and none of them is within its limit at 1500: one has to be left out, and
/// the others are within theirs. A block adds (3000 - price) x quantity in both hours,
/// which is least for block 6, one of the two largest: 5000.
pub fn edition_2_day() -> Orders {
    let mut orders = Orders::new().of_edition(2);
    for hour in [1, 2] {
        orders = orders.step(Buy, hour, 5_000, 1_346, 1).step(Sell, hour, 3_000, 1_346, 2);
    }
    for (quantity, price) in EDITION_2_BLOCKS {
        orders = orders.block(Sell, &[1, 2], price, quantity, 3);
    }
    orders
}

/// S5 in hours 2 and 3 of a day of 25 hours. Each hour adds 205000, and hour 3 is there
/// twice.
pub fn day_of_25_hours() -> Orders {
    base_in([2, 3]).block(Sell, &[2, 3], 2_900, 50, 3).on_day_of(25)
}

/// S5 in hours 2 and 4 of a day of 23 hours, its block over hour 3 as well, which is not
/// there.
pub fn day_of_23_hours() -> Orders {
    base_in([2, 4]).block(Sell, &[2, 3, 4], 2_900, 50, 3).on_day_of(23)
}

/// On a day of 23 hours two steps for hour 3.
pub fn step_beside_the_day() -> Orders {
    base_in([2, 3]).on_day_of(23)
}

/// On a day of 23 hours a block with one hour besides hour 3.
pub fn block_beside_the_day() -> Orders {
    base_in([2, 4]).block(Sell, &[2, 3], 2_900, 50, 3).on_day_of(23)
}

/// Days with links by name: the base book with two sell blocks or a sell and a buy, the
/// second below the first; a day of 25 hours with several generations; and a chain of 32.
pub fn linked_days() -> Vec<(&'static str, Orders)> {
    vec![
        ("linked-both", sell_and_buy(4_500)),
        ("linked-neither", sell_and_buy(3_999)),
        ("linked-left-out", two_sells([3_900, 2_900], 50)),
        ("linked-tie", two_sells([3_000, 3_000], 25)),
        ("linked-generations", generations()),
        ("linked-chain", chain_of_32()),
    ]
}

/// A sell of 50 at 3500, which alone would meet 3000, and its child, a buy of 50. Together
/// they leave the price at 4000, which the sell needs and the buy has to pay.
fn sell_and_buy(buys_at: u32) -> Orders {
    base()
        .block(Sell, &[1, 2], 3_500, 50, 3)
        .block(Buy, &[1, 2], buys_at, 50, 3)
        .link(2, 1)
        .of_edition(3)
}

/// Two sells, the second below the first. Each alone meets 3000.
fn two_sells(prices: [u32; 2], quantity: u32) -> Orders {
    let sell = |orders: Orders, price| orders.block(Sell, &[1, 2], price, quantity, 3);
    prices.into_iter().fold(base(), sell).link(2, 1).of_edition(3)
}

/// A day of 25 hours on which every set of blocks meets 3000 in hours 2 and 3. Block 4
/// misses its limit; 5 and 7 would keep theirs, but are below it. Block 3 is below 2, which
/// is below 1.
fn generations() -> Orders {
    let mut orders = Orders::new().of_edition(3).on_day_of(25);
    for hour in [2, 3] {
        orders = orders.step(Buy, hour, 5_000, 1_000, 1).step(Sell, hour, 3_000, 1_000, 2);
    }
    for (price, quantity) in
        [(2_900, 100), (2_800, 50), (2_950, 30), (3_100, 40), (2_000, 60), (2_500, 20), (1_000, 10)]
    {
        orders = orders.block(Sell, &[2, 3], price, quantity, 3);
    }
    orders.link(2, 1).link(3, 2).link(4, 1).link(5, 4).link(7, 5)
}

/// How many blocks are taken in the chain of 32: those ahead of the one at 3001.
pub const CHAIN_OF_32_TAKEN: u32 = 19;

/// Thirty-two sells of 30, each below the one before it, so that 2^32 sets need not be
/// listed: they sell 960 together, and hours 1 and 2 buy 1000 at 5000 and sell 1000 at 3000.
/// So their price is 3000 whatever is taken. All blocks are at 2000 but block 20, which
/// misses its limit and keeps out all below it.
fn chain_of_32() -> Orders {
    let mut orders = Orders::new().of_edition(3);
    for hour in [1, 2] {
        orders = orders.step(Buy, hour, 5_000, 1_000, 1).step(Sell, hour, 3_000, 1_000, 2);
    }
    for position in 0..32 {
        let price = if position == CHAIN_OF_32_TAKEN { 3_001 } else { 2_000 };
        orders = orders.block(Sell, &[1, 2], price, 30, 3 + position / 10);
    }
    (2..=32).fold(orders, |orders, child| orders.link(child, child - 1))
}

/// Days for the cash sheet by name: a day of 25 hours on which portfolios trade on both
/// sides, and one of 23 on which one trades with itself; on each one gets nothing, and the
/// portfolios do not rise along the chains.
pub fn cash_days() -> Vec<(&'static str, Orders)> {
    vec![("cash-autumn", both_sides()), ("cash-spring", with_itself())]
}

/// On a day of 25 hours portfolios 4 and 7 each buy in one hour and sell in the other. With
/// the block of portfolio 12 hour 2 is at 3000 and hour 3, which counts twice, at 2000: its
/// limit of 3 x 2300 is kept. The block of portfolio 9 misses its limit of 3 x 2400, and its
/// step is dearer than the price.
fn both_sides() -> Orders {
    Orders::new()
        .step(Buy, 2, 5_000, 100, 7)
        .step(Sell, 2, 3_000, 100, 4)
        .step(Sell, 2, 9_000, 40, 9)
        .step(Buy, 3, 6_000, 80, 4)
        .step(Sell, 3, 2_000, 80, 7)
        .block(Sell, &[2, 3], 2_300, 30, 12)
        .block(Sell, &[2, 3], 2_400, 20, 9)
        .on_day_of(25)
}

/// On a day of 23 hours portfolio 255 buys and sells in hour 2. The block of portfolio 100 is
/// taken as in S5, over hour 3 as well, which is not there. Its child, a buy of portfolio 30,
/// misses its limit.
fn with_itself() -> Orders {
    Orders::new()
        .step(Buy, 2, 5_000, 100, 255)
        .step(Sell, 2, 3_000, 100, 255)
        .step(Buy, 4, 5_000, 100, 10)
        .step(Sell, 4, 3_000, 100, 9)
        .block(Sell, &[2, 3, 4], 2_900, 50, 100)
        .block(Buy, &[2, 3, 4], 2_800, 20, 30)
        .link(2, 1)
        .of_edition(3)
        .on_day_of(23)
}

/// Days of edition 4 by name, on which prices give way: document 02's example, a day of 25
/// hours whose shift is above 500, and one with links.
pub fn shifted_days() -> Vec<(&'static str, Orders)> {
    vec![
        ("shift-alone", sell_and_buy_alone().of_edition(4)),
        ("shift-above", above_the_middle()),
        ("shift-linked", linked_and_shifted()),
    ]
}

/// "a sell block at 3000 and a buy block at 5000 alone, of equal size and hours": L is 1 and H
/// 300000 in every hour. The shifts from 10 to 16 keep both limits, and 16 is nearest 500.
fn sell_and_buy_alone() -> Orders {
    Orders::new().block(Sell, &[1, 2], 3_000, 50, 1).block(Buy, &[1, 2], 5_000, 50, 2)
}

/// On a day of 25 hours a sell needs 3 x 5600 over hour 2, with 4000 and 6000, and hour 3,
/// with 2000 and 8000, which counts twice: 8000 + 14 t is as much from t = 629 on. The buy
/// has to pay no more than 3 x 5602, which is 16806, what they pay at 629.
fn above_the_middle() -> Orders {
    let mut orders = Orders::new().of_edition(4).on_day_of(25);
    for (hour, low, high) in [(2, 4_000, 6_000), (3, 2_000, 8_000)] {
        orders = orders.step(Buy, hour, low, 100, 1).step(Sell, hour, high, 100, 2);
    }
    orders.block(Sell, &[2, 3], 5_600, 50, 3).block(Buy, &[2, 3], 5_602, 50, 4)
}

/// Hours 1 and 2 have 2000 and 8000. Block 4 is taken with its parent, the buy 3, at 4400,
/// which is t = 400. Block 2 would gain more with that buy, but its parent 1 needs 6000.
fn linked_and_shifted() -> Orders {
    let mut orders = Orders::new().of_edition(4);
    for hour in [1, 2] {
        orders = orders.step(Buy, hour, 2_000, 100, 1).step(Sell, hour, 8_000, 100, 2);
    }
    for (side, price) in [(Sell, 6_000), (Sell, 3_000), (Buy, 4_400), (Sell, 3_800)] {
        orders = orders.block(side, &[1, 2], price, 50, 3);
    }
    orders.link(2, 1).link(4, 3)
}

/// Portfolio 1 has 256 steps in hour 1, 128 on each side, and portfolio 2 one more there; in
/// hour 2 portfolio 1 has one more. All buys of hour 1 are above all its sells, so that all of
/// portfolio 1's trade: at 4000, and with a welfare of 10 x (1 + 3 + .. + 255).
pub fn steps_256() -> Orders {
    let mut orders = Orders::new().of_edition(4);
    for index in 1..=128 {
        orders = orders.step(Buy, 1, 4_000 + index, 10, 1).step(Sell, 1, 4_001 - index, 10, 1);
    }
    orders.step(Sell, 1, 4_002, 10, 2).step(Buy, 2, 3_000, 10, 1)
}

/// Two blocks with a link to a parent that is not there.
pub fn link_without_parent() -> Orders {
    let mut orders = two_sells([2_900, 2_900], 25);
    orders.blocks[0].number = 1;
    orders.blocks[1].number = 3;
    orders.links[0] = LinkOrder { child: 3, parent: 2 };
    orders
}

/// Two blocks with a link from the lower number to the higher.
pub fn link_upwards() -> Orders {
    let mut orders = two_sells([2_900, 2_900], 25);
    orders.links[0] = LinkOrder { child: 1, parent: 2 };
    orders
}
