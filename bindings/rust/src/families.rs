//! A family report, decoded.

use crate::lines::fields;
use crate::Refusal;

/// A block without a parent, with all blocks below it.
#[derive(Clone, Copy, Debug, PartialEq, Eq, Hash)]
pub struct Family {
    /// The number of the block without a parent.
    pub block: u32,
    /// What the family's taken blocks gain over their limits, in tenths of a cent.
    pub gain: u64,
}

/// Takes the lines of a report apart.
pub(crate) fn decoded(report: &str) -> Result<Vec<Family>, Refusal> {
    Ok(fields(report)?.map(|line| family(&line)).collect())
}

fn family(line: &[&str]) -> Family {
    let [block, gain] = line else { panic!("two fields, and not {line:?}") };
    Family { block: block.parse().expect("a number"), gain: gain.parse().expect("a number") }
}
