// Written by `twin_source` from crates/chains/src/walks.rt.
// The chains: what belongs on each, and the walks along one, from its first record to the zero that ends it, for at
// most R records: causes 3 and 4, and the records of each portfolio, for 6. Assumes nothing.

use crate::twin::by_value::chains::bounds::PORTFOLIO_NUMBERS;
use crate::twin::by_value::chains::following::chained;
use crate::twin::by_value::chains::{Chain, Surveyed};
use crate::twin::by_value::fields::is_out_of_range;
use crate::twin::by_value::records::{
    BLOCK_KIND, LINK_KIND, STEP_KIND, first_block, first_link, first_step, kind_of, number_of,
    portfolio_of, record_count,
};

// The index of a chain's first record.
pub fn first_on(book: &[u8], chain: Chain) -> u16
{
    match chain {
        Chain::Steps => first_step(book),
        Chain::Blocks => first_block(book),
        Chain::Links => first_link(book),
    }
}

// The kind of the records that belong on a chain.
fn kind_on(chain: Chain) -> u8
{
    match chain {
        Chain::Steps => STEP_KIND,
        Chain::Blocks => BLOCK_KIND,
        Chain::Links => LINK_KIND,
    }
}

// Whether the numbers along a chain must rise. An arm for each chain, though all say the same: each is told, and can be wrong, by itself.
fn is_numbered(chain: Chain) -> bool
{
    match chain {
        Chain::Steps => true,
        Chain::Blocks => true,
        Chain::Links => true,
    }
}

// Cause 3 at record i of a chain, after the number last.
fn is_misplaced(book: &[u8], chain: Chain, last: u16, i: u16) -> bool
{
    (record_count(book) <= i)
        | (kind_of(book, i) != kind_on(chain))
        | (is_numbered(chain) & (number_of(book, i) <= last))
}

// Causes 3 and 4 along a chain, and its length, in one walk.
pub fn survey_of(book: &[u8], chain: Chain) -> Surveyed
{
    let mut last = 0;
    let mut broken = false;
    let mut outside = false;
    let mut length = 0;
    for i in chained(book, first_on(book, chain)) {
        broken |= is_misplaced(book, chain, last, i);
        outside |= is_out_of_range(book, i);
        length += 1;
        last = number_of(book, i);
    }
    Surveyed {
        broken,
        outside,
        length,
    }
}

// How many records of a chain each portfolio has.
pub fn counts_by_portfolio(book: &[u8], chain: Chain) -> [u16; PORTFOLIO_NUMBERS]
{
    let mut counts = [0; PORTFOLIO_NUMBERS];
    for i in chained(book, first_on(book, chain)) {
        counts[usize::from(portfolio_of(book, i))] += 1;
    }
    counts
}
