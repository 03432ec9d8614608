// Written by `twin_source` from crates/chains/src/bounds.rt.
// The numbers by which records are counted along a chain. No code, no contract; the same numbers for
// the contracts stand in specs/Bounds.antt.

// The numbers that a portfolio's byte can be.
pub const PORTFOLIO_NUMBERS: usize = 256;

// The numbers that a step's hour, 1 to 24, can be: below 25.
pub const HOUR_NUMBERS: usize = 25;

// The most steps of a portfolio in one hour.
pub const MOST_STEPS_IN_HOUR: u16 = 256;
