// Written by `twin_source` from crates/pricing/src/blocks.rt.
// What the blocks of a set sell and buy in an hour: added up once, before a price is tried.

// The quantities that blocks sell and buy in an hour.
#[derive(Clone, Copy)]
pub struct Trades {
    pub sales: u64,
    pub buys: u64,
}

impl Trades {
    // One block more, if it is chosen and runs in the hour.
    fn add(mut self, chosen: bool, runs: bool, side: u8, quantity: u32) -> Trades
    {
        if chosen & runs {
            if side == 0 {
                self.buys += u64::from(quantity);
            } else {
                self.sales += u64::from(quantity);
            }
        }
        self
    }
}

// The trades of the blocks that the set holds, the lowest bit for the first block.
// Slices and no `&Blocks`: the publication lends columns cut at the count, and a struct for two callers is no plainer.
pub fn trades_of(sides: &[u8], hours: &[u32], quantities: &[u32], set: u32, hour: u32) -> Trades
{
    let mut trades = Trades { sales: 0, buys: 0 };
    let mut rest = set;
    for i in 0..sides.len() {
        let chosen = rest % 2 == 1;
        let runs = (hours[i] >> (hour - 1)) % 2 == 1;
        trades = trades.add(chosen, runs, sides[i], quantities[i]);
        rest /= 2;
    }
    trades
}
