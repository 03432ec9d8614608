//! The same search tree, with as little work at a node as we know how.
//!
//! What is kept in place of what the proved code computes anew at each node:
//! the places that a branch can reach change only at the hours of a block that
//! is decided or fixed; the blocks that their losses fix are a prefix of the
//! blocks in falling order of loss; a taken block is tested again only after a
//! change in one of its hours; what the undecided blocks would gain that are out is
//! added up as they come; and a family is left out with its root, where the proved
//! code asks each block for its parent. The answers of the test are the same, so the
//! nodes are the same.
//!
//! - `orders`: bytes to columns, or the refusal;
//! - `hours`: the tables of the hours, by sorting their steps;
//! - `root`: the prices that losses are counted at;
//! - `guess`: a limit for one of its passes;
//! - `shift`: where a set's prices stand between L and H;
//! - `search`: a pass of the search;
//! - `rivals`: branches that need not be followed, for others that were;
//! - `order`: the order in which it decides the blocks;
//! - `passes`: passes with growing limits, light and heavy;
//! - `publish`: the result.

mod guess;
mod hours;
mod order;
mod orders;
mod passes;
mod publish;
mod rivals;
mod root;
mod search;
mod shift;

use hours::Hours;
use orders::Orders;
use passes::Passes;
use publish::Leftovers;
pub use search::Settled;

/// A list with a value for each of the 24 hours.
type ByHour<T> = [T; 24];

/// The last place of an hour with 32 blocks of 50, and with 32 of 250.
const SMALL: usize = 1_600;
const WIDE: usize = 8_000;

/// All that a clearing needs besides book and result, to be used again.
#[derive(Default)]
pub struct Workspace {
    orders: Orders,
    small: Hours<{ SMALL + 2 }>,
    wide: Hours<{ WIDE + 2 }>,
    passes: Passes,
    leftovers: Leftovers,
}

impl Workspace {
    /// A workspace whose light passes have so much fuel. Tests give them less than is usual, so
    /// that small books come to the heavy passes.
    pub fn with_fuel(fuel: u64) -> Workspace {
        Workspace { passes: Passes::with_fuel(fuel), ..Workspace::default() }
    }

    /// How the set of the last book was found that was cleared.
    pub fn settled(&self) -> Settled {
        self.passes.settled
    }
}

/// Clears a book: 0 when the outcome is written to the result, else the refusal.
pub fn clear(book: &[u8], result: &mut [u8], space: &mut Workspace) -> u32 {
    let Workspace { orders, small, wide, passes, leftovers } = space;
    if let Err(refusal) = orders.read(book) {
        return refusal;
    }
    if result.len() != 196 + 4 * orders.record_count {
        return 7;
    }
    // Rows close to each other are read faster, so that wide ones are kept for the days
    // that need them.
    if orders.fit(SMALL as u32) {
        clear_in(orders, small, passes, leftovers, result)
    } else {
        clear_in(orders, wide, passes, leftovers, result)
    }
    0
}

fn clear_in<const ROOM: usize>(
    orders: &Orders,
    hours: &mut Hours<ROOM>,
    passes: &mut Passes,
    leftovers: &mut Leftovers,
    result: &mut [u8],
) {
    hours.fill_prices(orders);
    let root = root::prices(orders, hours);
    hours.fill_gaps(&root);
    // Where there are no links, the search has no line for them, and where prices do not give
    // way none for their shift.
    let find = match (orders.links.is_empty(), orders.shifts) {
        (true, false) => Passes::find::<ROOM, false, false>,
        (false, false) => Passes::find::<ROOM, true, false>,
        (true, true) => Passes::find::<ROOM, false, true>,
        (false, true) => Passes::find::<ROOM, true, true>,
    };
    let best = find(passes, orders, hours, &root);
    publish::publish(orders, hours, &best, leftovers, result);
}
