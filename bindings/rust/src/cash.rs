//! A cash sheet, decoded.

use crate::lines::fields;
use crate::Refusal;

/// What a portfolio, or all of them together, trades over the day. Hour 3 counts as the day
/// counts it.
#[derive(Clone, Copy, Debug, Default, PartialEq, Eq, Hash)]
pub struct Account {
    /// The quantity bought, in tenths of a MWh.
    pub bought: u64,
    /// The quantity sold, in tenths of a MWh.
    pub sold: u64,
    /// The cash paid, in tenths of a cent.
    pub paid: u64,
    /// The cash received, in tenths of a cent.
    pub received: u64,
}

/// The accounts of an accepted book.
#[derive(Clone, Debug, PartialEq, Eq)]
pub struct Cash {
    /// Each portfolio with an order, executed or not, in rising number.
    pub portfolios: Vec<(u32, Account)>,
    /// Over all orders. As much is bought as sold, and as much paid as received.
    pub all: Account,
}

impl Cash {
    /// The account of the portfolio of this number, where it has an order.
    pub fn portfolio(&self, number: u32) -> Option<Account> {
        self.portfolios.iter().find(|(other, _)| *other == number).map(|(_, account)| *account)
    }
}

/// Takes the lines of a cash sheet apart.
pub(crate) fn decoded(sheet: &str) -> Result<Cash, Refusal> {
    let mut lines: Vec<(&str, Account)> = fields(sheet)?.map(|line| account(&line)).collect();
    let (_, all) = lines.pop().expect("the totals");
    let numbered = |(name, account): (&str, Account)| (name.parse().expect("a number"), account);
    Ok(Cash { portfolios: lines.into_iter().map(numbered).collect(), all })
}

/// The first field of a line, a portfolio or `all`, and its account.
fn account<'a>(line: &[&'a str]) -> (&'a str, Account) {
    let [name, numbers @ ..] = line else { panic!("an empty line") };
    let numbers: Vec<u64> = numbers.iter().map(|it| it.parse().expect("a number")).collect();
    let [bought, sold, paid, received] = numbers[..] else { panic!("five fields, not {line:?}") };
    (name, Account { bought, sold, paid, received })
}
