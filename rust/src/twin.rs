//! The proved clearing's algorithm in plain Rust, twice, to be timed beside it:
//!
//! - [`by_value`]: the proved source itself without its contracts, written by
//!   [`source`]: the same steps in the same by-value style;
//! - [`in_place`]: the same search tree with as little work at a node as we know
//!   how: one state that is changed and changed back;
//! - [`count`]: how many nodes a search of either has looked at.

pub mod by_value;
pub mod count;
pub mod in_place;
pub mod source;
