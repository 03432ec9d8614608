// Written by `twin_source` from crates/places/src/numbers.rt.
// One of two numbers, by a side or a test: a choice where the search's loops would have a branch.

// The first number for a buy, the second for a sell.
pub fn by_side(side: u8, a: u32, b: u32) -> u32
{
    if side == 0 { a } else { b }
}

// The first number where the test passes, else the second.
pub fn choose(test: bool, a: u32, b: u32) -> u32
{
    if test { a } else { b }
}
