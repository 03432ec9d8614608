// Written by `twin_source` from crates/chains/src/lib.rt.
// The chains of a book: what belongs on each, and the causes of refusal that are looked for along one.
// Every public call takes any bytes, ends, and has no `requires`; its result is what a definition of `specs/` gives. Assumes nothing.

mod bounds; // the numbers by which records are counted
mod following; // a walk along a chain, as an iterator
mod links; // cause 10, along the links
mod steps; // cause 11, along the steps
mod uncounted; // cause 9, along each chain
mod walks; // records that hang together by `next`; causes 3 and 4, and the counts for 6

pub use bounds::{MOST_STEPS_IN_HOUR, PORTFOLIO_NUMBERS};
pub use following::{Walk, chained};
pub use links::has_wrong_link;
pub use steps::has_more_steps;
pub use uncounted::has_wrong_hours;
pub use walks::{counts_by_portfolio, survey_of};

// The chains of a book. One more chain is one more case here, in specs/Chains.antt and in src/walks.rt.
#[derive(Clone, Copy)]
pub enum Chain {
    Steps,
    Blocks,
    Links,
}

// What one walk along a chain finds out: causes 3 and 4 on it, and how many records it has.
#[derive(Clone, Copy)]
pub struct Surveyed {
    pub broken: bool,
    pub outside: bool,
    pub length: u16,
}
