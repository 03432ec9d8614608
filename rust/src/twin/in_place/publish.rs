//! The result of the published set.

use super::hours::Hours;
use super::orders::{Block, Orders, Step, CHANGED};
use super::search::Best;

/// Writes the result, whose size is right.
pub fn publish<const ROOM: usize>(
    orders: &Orders,
    hours: &Hours<ROOM>,
    best: &Best,
    leftovers: &mut Leftovers,
    result: &mut [u8],
) {
    let mut welfare = 0i64;
    for h in 0..24 {
        let steps = &orders.steps[orders.ends[h]..orders.ends[h + 1]];
        let price = best.prices[h];
        let net = i64::from(best.places[h]) - i64::from(hours.off[h]);
        let (bought, worth) = publish_hour(steps, price, net, leftovers, result);
        let at = 8 + 8 * h;
        put(result, at, price);
        put(result, at + 4, (bought + bought_by_blocks(&orders.blocks, best.set, h)) as u32);
        welfare += worth;
        if h == CHANGED && orders.day.again != 0 {
            welfare += worth;
        }
    }
    if orders.day.is_short() {
        put(result, 8 + 8 * CHANGED, 0);
    }
    for (i, block) in orders.blocks.iter().enumerate() {
        let chosen = (best.set >> i) & 1;
        put(result, row_of(block.record), chosen * block.quantity);
        let worth = i64::from(chosen) * i64::from(block.quantity) * i64::from(block.limit);
        welfare += if block.sells { -worth } else { worth };
    }
    for link in &orders.links {
        put(result, row_of(link.record), 0);
    }
    result[..8].copy_from_slice(&welfare.to_be_bytes());
}

fn put(result: &mut [u8], at: usize, value: u32) {
    result[at..at + 4].copy_from_slice(&value.to_be_bytes());
}

fn row_of(record: u16) -> usize {
    196 + 4 * usize::from(record)
}

fn bought_by_blocks(blocks: &[Block], set: u32, h: usize) -> i64 {
    let chosen = |(i, block): &(usize, &Block)| {
        !block.sells && (set >> i) & 1 == 1 && (block.hours >> h) & 1 == 1
    };
    blocks.iter().enumerate().filter(chosen).map(|(_, block)| i64::from(block.quantity)).sum()
}

/// What the steps of a side at the price get together, and what they hold.
#[derive(Clone, Copy, Default)]
struct Group {
    amount: u64,
    total: u64,
}

/// The rows of an hour's steps; what they buy, and what all of them are worth.
fn publish_hour(
    steps: &[Step],
    price: u32,
    net: i64,
    leftovers: &mut Leftovers,
    result: &mut [u8],
) -> (i64, i64) {
    let (buys, sells) = groups_at(steps, price, net);
    let (mut bought, mut worth) = (0, 0);
    for step in steps {
        let better = if step.sells { step.price < price } else { step.price > price };
        let mut given = 0;
        if better {
            given = i64::from(step.quantity);
        } else if step.price == price {
            let group = if step.sells { sells } else { buys };
            given = leftovers.floor(group, step) as i64;
        }
        put(result, row_of(step.record), given as u32);
        let amount = given * i64::from(step.price);
        worth += if step.sells { -amount } else { amount };
        bought += if step.sells { 0 } else { given };
    }
    // Of the two sides one is served in full or not at all, so that the leftovers are the other's.
    let more = leftovers.give(result);
    let sold = sells.amount < sells.total;
    worth += if sold { -more * i64::from(price) } else { more * i64::from(price) };
    (bought + if sold { 0 } else { more }, worth)
}

/// The groups of the buys and of the sells at the price.
fn groups_at(steps: &[Step], price: u32, net: i64) -> (Group, Group) {
    let (mut above, mut held, mut below, mut upto) = (0, 0, 0, 0);
    for step in steps {
        let quantity = i64::from(step.quantity);
        if step.sells {
            below += if step.price < price { quantity } else { 0 };
            upto += if step.price <= price { quantity } else { 0 };
        } else {
            above += if step.price > price { quantity } else { 0 };
            held += if step.price == price { quantity } else { 0 };
        }
    }
    let buys: i64 = held.min(upto + net - above);
    let sells = above + buys - net - below;
    let group = |amount: i64, total: i64| Group { amount: amount as u64, total: total as u64 };
    (group(buys, held), group(sells, upto - below))
}

/// The steps of an hour that may get one more than their part rounded down.
#[derive(Default)]
pub struct Leftovers {
    /// For each of them its remainder and, below it, its turn and its record: more comes first.
    turns: Vec<u64>,
    /// The parts of a tenth that are left over, so many to a tenth.
    parts: u64,
    to_a_tenth: u64,
}

/// Bits of a record, and of a turn.
const PLACE: u32 = 11;

impl Leftovers {
    /// What a step gets of its group's amount, rounded down; what remains is kept.
    fn floor(&mut self, group: Group, step: &Step) -> u64 {
        let own = u64::from(step.quantity);
        if group.amount == group.total {
            return own;
        }
        if group.amount == 0 {
            return 0;
        }
        let product = own * group.amount;
        let (given, remainder) = (product / group.total, product % group.total);
        let turn = (1 << PLACE) - 1 - self.turns.len() as u64;
        self.turns.push((remainder << (2 * PLACE)) | (turn << PLACE) | u64::from(step.record));
        self.parts += remainder;
        self.to_a_tenth = group.total;
        given
    }

    /// Adds the leftover tenths to the rows, one each to the largest remainders; how many.
    fn give(&mut self, result: &mut [u8]) -> i64 {
        let Leftovers { turns, parts, to_a_tenth } = self;
        let count = *parts / (*to_a_tenth).max(1);
        if count > 0 {
            let (first, last, _) =
                turns.select_nth_unstable_by(count as usize - 1, |one, other| other.cmp(one));
            for turn in first.iter().chain([&*last]) {
                add_one(result, row_of((turn & ((1 << PLACE) - 1)) as u16));
            }
        }
        turns.clear();
        *parts = 0;
        count as i64
    }
}

fn add_one(result: &mut [u8], at: usize) {
    let row = u32::from_be_bytes([result[at], result[at + 1], result[at + 2], result[at + 3]]);
    put(result, at, row + 1);
}
