//! Passes of the search with growing limits, until one finds the published set: light ones with
//! little fuel, where ordinary days are found, and heavy ones behind them, with rivals.

use super::hours::Hours;
use super::order::Order;
use super::orders::Orders;
use super::rivals::SLOTS;
use super::search::{choices_of, Best, Pass, Search, Settled};
use super::ByHour;

/// The fuel of all light passes together, some times what ordinary days spend.
const LITTLE_FUEL: u64 = 1_000;

/// The limit of the first pass, where there is no near guess.
const FIRST_LIMIT: u64 = 1_024;

/// The limit of the last light pass: ordinary days are found below it, and pay nothing for a
/// guess or for rivals.
const LAST_LIGHT: u64 = 8_192;

/// The most that a guess may lose with which a day with links begins: such days lose far more
/// than others, and a guess is mostly near, but not where it is higher.
const LAST_NEAR: u64 = 524_288;

/// What passes need besides a day, to be used again.
pub struct Passes {
    /// The fuel of the light passes.
    fuel: u64,
    /// The slots of the heavy passes' rivals.
    hints: Vec<u32>,
    /// How the last set was found.
    pub settled: Settled,
}

impl Default for Passes {
    fn default() -> Passes {
        Passes::with_fuel(LITTLE_FUEL)
    }
}

impl Passes {
    pub fn with_fuel(fuel: u64) -> Passes {
        Passes { fuel, hints: vec![0; SLOTS], settled: Settled::default() }
    }

    /// The published set.
    pub fn find<const ROOM: usize, const LINKED: bool, const SHIFTED: bool>(
        &mut self,
        orders: &Orders,
        hours: &Hours<ROOM>,
        root: &ByHour<u32>,
    ) -> Best {
        let choices = choices_of(orders, root);
        let order = Order::of(&orders.blocks, &choices);
        let (day, choices) = (orders.day, order.applied(&choices));
        let mut search = Search::<ROOM, LINKED, SHIFTED>::new(hours, day, choices, self.fuel);
        let best = match light(&mut search) {
            Ok(best) => best,
            Err(reached) => heavy(&mut search, &mut self.hints, reached),
        };
        self.settled = search.settled();
        Best { set: order.numbered(best.set), ..best }
    }
}

/// The published set, where the fuel is enough to find it; else the limit from which heavy
/// passes go on.
fn light<const ROOM: usize, const LINKED: bool, const SHIFTED: bool>(
    search: &mut Search<ROOM, LINKED, SHIFTED>,
) -> Result<Best, u64> {
    let guessed = if LINKED { search.guess() } else { None };
    if let Some(loss) = guessed.filter(|&loss| loss <= LAST_NEAR) {
        return match search.pass(loss + 1) {
            Pass::Found(best) => Ok(best),
            Pass::Nothing | Pass::Spent => Err(FIRST_LIMIT),
        };
    }
    let mut limit = FIRST_LIMIT;
    while limit <= LAST_LIGHT {
        match search.pass(limit) {
            Pass::Found(best) => return Ok(best),
            Pass::Nothing => limit *= 2,
            Pass::Spent => break,
        }
    }
    Err(limit)
}

/// The published set, by passes from a limit on.
fn heavy<'a, const ROOM: usize, const LINKED: bool, const SHIFTED: bool>(
    search: &mut Search<'a, ROOM, LINKED, SHIFTED>,
    hints: &'a mut [u32],
    first: u64,
) -> Best {
    let guessed = search.guess();
    search.go_on_with_rivals(hints);
    let mut limit = first;
    loop {
        if let Pass::Found(best) = search.pass(limit) {
            return best;
        }
        limit = limit_after(limit, guessed);
    }
}

/// The limit of the pass after one that found nothing: twice as much, or just above the guess
/// where that is near. A guess that is further off is often too high by far.
fn limit_after(limit: u64, guessed: Option<u64>) -> u64 {
    let near = limit..=3 * limit + limit / 8;
    guessed.filter(|loss| near.contains(loss)).map_or(2 * limit, |loss| loss + 1)
}
