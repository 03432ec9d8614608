// Written by `twin_source` from crates/passes/src/limits.rt.
// The limits of the passes, and their fuel.

// The limit of the first pass: the published set seldom loses as much.
pub const FIRST_LIMIT: u64 = 1024;

// The limit of the last light pass: ordinary days are found below it, and pay nothing for a guess or a table.
pub const LAST_LIGHT: u64 = 8192;

// The limit of the last pass, 2 to the power of 39: more than 32 blocks and 24 hours can lose, each of them less than 2 to the power of 32.
pub const LAST_LIMIT: u64 = 549755813888;

// The greatest guess that passes over linked blocks begin at; a greater one is often too high by far.
pub const LAST_NEAR: u64 = 524288;

// The fuel of all light passes together, some times what ordinary days spend.
pub const LITTLE_FUEL: u64 = 1000;

// The fuel of a heavy pass, 2 to the power of 32: no pass over 32 blocks spends it.
pub const ENOUGH_FUEL: u64 = 4294967296;

// The limit of the pass after one that found nothing: twice as much; or just above the guess, where that is no more than about three times as much. A guess
// that is further off is often too high by far.
pub fn limit_after(limit: u64, guessed: Option<u64>) -> u64
{
    let Some(loss) = guessed else {
        return limit * 2;
    };
    if loss < limit {
        return limit * 2;
    }
    if limit * 3 + limit / 8 < loss {
        return limit * 2;
    }
    loss + 1
}
