//! The cash sheet as text and decoded.

mod samples;

use auction::{Account, Cash, Refusal};
use samples::{each_text, sample};

/// Bought, sold, paid and received.
fn account([bought, sold, paid, received]: [u64; 4]) -> Account {
    Account { bought, sold, paid, received }
}

#[test]
fn accounts() {
    let s5 = Cash {
        portfolios: vec![
            (1, account([200, 0, 600_000, 0])),
            (2, account([0, 100, 0, 300_000])),
            (3, account([0, 100, 0, 300_000])),
        ],
        all: account([200, 200, 600_000, 600_000]),
    };
    assert_eq!(auction::cash(&sample("S5.book")), Ok(s5));
    let autumn = auction::cash(&sample("cash-autumn.book")).expect("accepted");
    assert_eq!(autumn.portfolio(4), Some(account([160, 70, 320_000, 210_000])));
    // One whose orders got nothing, and one without an order.
    assert_eq!((autumn.portfolio(9), autumn.portfolio(10)), (Some(Account::default()), None));
    assert_eq!(autumn.all, account([260, 260, 620_000, 620_000]));
    let nothing = Cash { portfolios: Vec::new(), all: Account::default() };
    assert_eq!(auction::cash(&sample("head-alone.book")), Ok(nothing));
}

/// The sheet of each sample, whole and in buffers that are too short.
#[test]
fn sheets() {
    let line = |name: &str, it: &Account| {
        format!("{name};{};{};{};{}\n", it.bought, it.sold, it.paid, it.received)
    };
    each_text("cash", auction::cash_sheet, auction::cash_into, |book| {
        let cash = auction::cash(book)?;
        let own = cash.portfolios.iter().map(|(number, it)| line(&number.to_string(), it));
        let title = "portfolio;bought;sold;paid;received\n".to_string();
        Ok(title + &own.collect::<String>() + &line("all", &cash.all))
    });
}

#[test]
fn refusals() {
    assert_eq!(auction::cash(b""), Err(Refusal::Length));
    assert_eq!(auction::cash(&sample("refused-10.book")), Err(Refusal::Link));
    assert_eq!(auction::cash_sheet(&sample("refused-9-step.book")), "refused;9\n");
}
