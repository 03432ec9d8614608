//! What the program cash-print writes: what each portfolio bought and sold, paid and
//! received.

use super::day::Published;
use super::read::{Book, Side};
use super::sheet::{published, refusal_line};
use std::collections::BTreeSet;

/// The cash sheet of a book's published outcome, or `refused;` and the number.
pub fn cash(book: &[u8]) -> Vec<u8> {
    published(book).map_or_else(refusal_line, |(book, result)| cash_of(&book, &result))
}

/// The cash sheet of a book and the bytes of its result: "Portfolios with an order stand in
/// rising order", each with a line that is added up along the hours of the day; "Each total
/// equals the sum over the order records, not over the printed lines."
pub fn cash_of(book: &Book, result: &[u8]) -> Vec<u8> {
    let published = Published::from_bytes(result);
    let orders = order_records(book);
    let portfolios: BTreeSet<u32> = orders.iter().map(|order| order.portfolio).collect();
    let mut lines = String::from("portfolio;bought;sold;paid;received\n");
    for portfolio in portfolios {
        let own = orders.iter().filter(|order| order.portfolio == portfolio);
        let account = account_by_hours(book, &published, &own.collect::<Vec<_>>());
        lines += &account.line(&portfolio.to_string());
    }
    lines += &account_by_records(&published, &orders).line("all");
    lines.into_bytes()
}

/// An order, in whichever record it stands.
struct Order {
    record: usize,
    portfolio: u32,
    side: Side,
    /// The hours of the day in which it trades, one that passes twice twice.
    hours: Vec<u32>,
}

/// The orders of a book, from record 1 to the last; links are no orders.
fn order_records(book: &Book) -> Vec<Order> {
    let steps = book.steps.iter().map(|step| Order {
        record: step.record,
        portfolio: step.portfolio,
        side: step.side,
        hours: book.hours.iter().copied().filter(|&hour| hour == step.hour).collect(),
    });
    let blocks = book.blocks.iter().map(|block| Order {
        record: block.record,
        portfolio: block.portfolio,
        side: block.side,
        hours: book.hours_of(block),
    });
    let mut orders: Vec<Order> = steps.chain(blocks).collect();
    orders.sort_by_key(|order| order.record);
    orders
}

/// Quantities in tenths of a MWh, cash in tenths of a cent.
#[derive(Clone, Copy, Debug, Default, PartialEq, Eq)]
struct Account {
    bought: u64,
    sold: u64,
    paid: u64,
    received: u64,
}

impl Account {
    /// One hour of a trade: a quantity in tenths of a MW at a price in cents per MWh.
    fn add(&mut self, side: Side, quantity: u32, price: u32) {
        let (amount, money) = match side {
            Side::Buy => (&mut self.bought, &mut self.paid),
            Side::Sell => (&mut self.sold, &mut self.received),
        };
        *amount += u64::from(quantity);
        *money += u64::from(quantity) * u64::from(price);
    }

    fn line(&self, name: &str) -> String {
        let Account { bought, sold, paid, received } = self;
        format!("{name};{bought};{sold};{paid};{received}\n")
    }
}

/// What some orders trade in each hour of the day as it passes: "Cash is executed quantity
/// times the hour's price; quantity and cash both count hour 3 as the day counts it."
fn account_by_hours(book: &Book, published: &Published, orders: &[&Order]) -> Account {
    let mut account = Account::default();
    for &hour in &book.hours {
        let price = published.prices[hour as usize - 1];
        for order in orders.iter().filter(|order| order.hours.contains(&hour)) {
            account.add(order.side, published.row(order.record), price);
        }
    }
    account
}

/// What each order record trades in its hours, one record after another.
fn account_by_records(published: &Published, orders: &[Order]) -> Account {
    let mut account = Account::default();
    for order in orders {
        for &hour in &order.hours {
            account.add(
                order.side,
                published.row(order.record),
                published.prices[hour as usize - 1],
            );
        }
    }
    account
}
