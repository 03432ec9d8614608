//! Document 02, P3: the cash sheet, written down from the paper. What is said here is the
//! listing's own; `proved_cash` holds the proved call to the listing.

use auction_listing::books::{
    cash_book_on, cash_days, cash_orders_on, count, crowded_book_on, day_of_23_hours,
    day_of_25_hours, head_alone, reader_book_on, small_book_on, step_beside_the_day, worked_days,
    Dice, Orders, DAYS, DAYS_AND_EDITIONS,
};
use auction_listing::paper::Side::{Buy, Sell};
use auction_listing::paper::{
    cash, cash_of, clear, read, result_length, sheet, texts, Book, Published, Side, Texts,
};
use std::collections::BTreeMap;

const HEAD: &str = "portfolio;bought;sold;paid;received\n";

fn cash_text(orders: &Orders) -> String {
    String::from_utf8(cash(&orders.book())).expect("text")
}

fn worked(name: &str) -> Orders {
    worked_days().into_iter().find(|(other, _)| *other == name).expect(name).1
}

/// Bought, sold, paid and received.
type Line = [u64; 4];

/// A sheet taken apart: the line of each portfolio, and the totals.
#[derive(Clone, Debug, PartialEq, Eq)]
struct CashSheet {
    lines: Vec<(u32, Line)>,
    all: Line,
}

impl CashSheet {
    fn of(text: &str) -> CashSheet {
        let body = text.strip_prefix(HEAD).and_then(|body| body.strip_suffix('\n'));
        let mut lines: Vec<&str> = body.expect("a head line and a last line").split('\n').collect();
        let fields = |line: &str| -> (String, Line) {
            let (name, numbers) = line.split_once(';').expect("fields");
            let numbers: Vec<u64> = numbers.split(';').map(|it| it.parse().unwrap()).collect();
            (name.to_string(), numbers.try_into().expect("four numbers"))
        };
        let (name, all) = fields(lines.pop().expect("the totals"));
        assert_eq!(name, "all");
        let lines = lines.into_iter().map(fields).map(|(name, line)| (name.parse().unwrap(), line));
        CashSheet { lines: lines.collect(), all }
    }

    fn of_book(book: &[u8]) -> CashSheet {
        CashSheet::of(&String::from_utf8(cash(book)).expect("text"))
    }

    fn line(&self, portfolio: u32) -> Option<Line> {
        self.lines.iter().find(|(other, _)| *other == portfolio).map(|(_, line)| *line)
    }
}

fn sum(lines: impl Iterator<Item = Line>) -> Line {
    lines.fold([0; 4], |sum, line| [0, 1, 2, 3].map(|at| sum[at] + line[at]))
}

/// "For S5 with portfolio 1 buying, 2 selling and 3 owning the block", to the byte.
#[test]
fn the_sheet_of_s5() {
    let expected = "portfolio;bought;sold;paid;received\n1;200;0;600000;0\n2;0;100;0;300000\n\
                    3;0;100;0;300000\nall;200;200;600000;600000\n";
    assert_eq!(cash(&worked("S5").book()), expected.as_bytes());
}

/// S5 in hours 2 and 3: "quantity and cash both count hour 3 as the day counts it", so twice
/// on a day of 25 hours, and of 23 not at all.
#[test]
fn hour_3_counts_as_the_day_counts_it() {
    let autumn = "1;300;0;900000;0\n2;0;150;0;450000\n3;0;150;0;450000\n\
                  all;300;300;900000;900000\n";
    assert_eq!(cash_text(&day_of_25_hours()), format!("{HEAD}{autumn}"));
    let s5 = cash_text(&worked("S5"));
    assert_eq!(cash_text(&day_of_25_hours().on_day_of(24)), s5);
    // In hours 2 and 4 of a day of 23, its block over hour 3 as well.
    assert_eq!(cash_text(&day_of_23_hours()), s5);
    // On 24 hours the block has no buyer in hour 3 and is left out.
    let without = "1;200;0;800000;0\n2;0;200;0;800000\n3;0;0;0;0\nall;200;200;800000;800000\n";
    assert_eq!(cash_text(&day_of_23_hours().on_day_of(24)), format!("{HEAD}{without}"));
    assert_eq!(cash(&day_of_25_hours().on_day_of(23).book()), b"refused;9\n");
    assert_eq!(cash(&step_beside_the_day().book()), b"refused;9\n");
}

/// "Cash is executed quantity times the hour's price", and not the order's.
#[test]
fn cash_is_at_the_price_of_the_hour() {
    let sold_at_4000 = "1;200;0;800000;0\n2;0;200;0;800000\nall;200;200;800000;800000\n";
    assert_eq!(cash_text(&worked("S1")), format!("{HEAD}{sold_at_4000}"));
    // Executed, and not offered: 60 of 100 bought, at 300000.
    let executed = "1;60;0;18000000;0\n2;0;60;0;18000000\nall;60;60;18000000;18000000\n";
    assert_eq!(cash_text(&worked("S8")), format!("{HEAD}{executed}"));
    // Two hours at different prices.
    let orders = Orders::new()
        .step(Sell, 1, 3_000, 100, 2)
        .step(Sell, 2, 4_000, 100, 2)
        .step(Buy, 1, 5_000, 10, 1)
        .step(Buy, 2, 5_000, 10, 1)
        .block(Buy, &[1, 2], 3_600, 40, 3);
    let lines = "1;20;0;70000;0\n2;0;100;0;350000\n3;80;0;280000;0\nall;100;100;350000;350000\n";
    assert_eq!(cash_text(&orders), format!("{HEAD}{lines}"));
}

/// "Portfolios with an order stand in rising order", executed or not, and no others.
#[test]
fn portfolios_with_an_order() {
    assert_eq!(cash_text(&worked("S9")), format!("{HEAD}2;0;0;0;0\nall;0;0;0;0\n"));
    let with_block_left_out = "1;200;0;800000;0\n2;0;200;0;800000\n3;0;0;0;0\n";
    let totals = "all;200;200;800000;800000\n";
    assert_eq!(cash_text(&worked("S2")), format!("{HEAD}{with_block_left_out}{totals}"));
    let days: BTreeMap<&str, Orders> = cash_days().into_iter().collect();
    let autumn = "4;160;70;320000;210000\n7;100;100;300000;200000\n9;0;0;0;0\n\
                  12;0;90;0;210000\nall;260;260;620000;620000\n";
    assert_eq!(cash_text(&days["cash-autumn"]), format!("{HEAD}{autumn}"));
    let spring = "9;0;50;0;150000\n10;100;0;300000;0\n30;0;0;0;0\n100;0;100;0;300000\n\
                  255;100;50;300000;150000\nall;200;200;600000;600000\n";
    assert_eq!(cash_text(&days["cash-spring"]), format!("{HEAD}{spring}"));
    // A link has no portfolio.
    let unlinked = Orders { links: Vec::new(), ..days["cash-spring"].clone() };
    assert_eq!(cash_text(&unlinked), format!("{HEAD}{spring}"));
}

#[test]
fn a_book_without_orders() {
    for (day, edition) in DAYS_AND_EDITIONS {
        let orders = head_alone().on_day_of(day).of_edition(edition);
        assert_eq!(cash_text(&orders), format!("{HEAD}all;0;0;0;0\n"));
    }
}

/// "It reads, refuses and ends its lines as auction-print does."
#[test]
fn refusals_are_those_of_the_sheet() {
    assert_eq!(cash(b""), b"refused;1\n");
    let mut refused = 0;
    for seed in 0..count("BOOKS", 2_000) {
        let (day, edition) = DAYS_AND_EDITIONS[seed as usize % DAYS_AND_EDITIONS.len()];
        let book = reader_book_on(day, edition, seed);
        if read(&book).is_ok_and(|accepted| accepted.blocks.len() > 9) {
            continue; // the listing of all sets takes too long
        }
        let Texts { sheet: of_sheet, families, cash: of_cash } = texts(&book);
        assert_eq!((&sheet(&book), &cash(&book)), (&of_sheet, &of_cash), "seed {seed}");
        assert_eq!(of_cash.last(), Some(&b'\n'));
        assert_eq!(of_cash.iter().filter(|&&byte| byte == b'\r').count(), 0);
        if read(&book).is_err() {
            assert_eq!((&of_cash, &families), (&of_sheet, &of_sheet), "seed {seed}");
            refused += 1;
        } else {
            assert!(of_cash.starts_with(HEAD.as_bytes()), "seed {seed}");
        }
    }
    assert!(refused >= 500);
}

/// The order records of a book with their portfolio, side and the row of their result, each
/// as often as its hours count: found by the bytes of the records.
fn records(book: &[u8], published: &Published) -> Vec<(u32, Side, u64, u64)> {
    let mut found = Vec::new();
    for (record, bytes) in book.chunks(16).enumerate().skip(1) {
        let hours: Vec<usize> = match bytes[0] {
            1 => vec![usize::from(bytes[6])],
            2 => {
                let bits = u32::from_be_bytes([0, bytes[8], bytes[9], bytes[10]]);
                (1..=24).filter(|hour| (bits >> (hour - 1)) & 1 == 1).collect()
            }
            _ => continue,
        };
        let side = if bytes[1] == 0 { Buy } else { Sell };
        let row = u64::from(published.row(record));
        let times = |hour: usize| if hour == 3 { u64::from(book[6]) - 23 } else { 1 };
        let quantity: u64 = hours.iter().map(|&hour| row * times(hour)).sum();
        let price = |hour: usize| u64::from(published.prices[hour - 1]);
        let cash: u64 = hours.iter().map(|&hour| row * times(hour) * price(hour)).sum();
        found.push((u32::from(bytes[7]), side, quantity, cash));
    }
    found
}

/// Of both sides together.
fn account(records: &[(u32, Side, u64, u64)]) -> Line {
    let line = |&(_, side, quantity, cash): &(u32, Side, u64, u64)| match side {
        Buy => [quantity, 0, cash, 0],
        Sell => [0, quantity, 0, cash],
    };
    sum(records.iter().map(line))
}

/// What the sheets of random books have in common.
#[derive(Debug, Default)]
struct Variety {
    books: u32,
    trades: u32,
    got_nothing: u32,
    both_sides: u32,
    blocks_alone: u32,
    all_portfolios: u32,
}

impl Variety {
    /// Holds the sheet of a book to the paper's sentences.
    fn look_at(&mut self, name: &str, book: &[u8]) {
        let accepted: Book = read(book).unwrap_or_else(|refusal| panic!("{name}: {refusal}"));
        let result = clear(book, result_length(accepted.record_count)).expect("cleared");
        let published = Published::from_bytes(&result);
        let text = String::from_utf8(cash_of(&accepted, &result)).expect("text");
        let CashSheet { lines, all } = CashSheet::of(&text);
        // "cash paid in all equals cash received", and bought equals sold.
        assert_eq!((all[0], all[2]), (all[1], all[3]), "{name}");
        // "Each total equals the sum over the order records"; that of the lines is the same.
        let records = records(book, &published);
        assert_eq!(all, account(&records), "{name}");
        assert_eq!(all, sum(lines.iter().map(|(_, line)| *line)), "{name}");
        // What the hours say: the traded quantity of each, and at its price.
        let traded = |hour: &u32| u64::from(published.traded[*hour as usize - 1]);
        let paid = |hour: &u32| traded(hour) * u64::from(published.prices[*hour as usize - 1]);
        let hours = || accepted.hours.iter();
        assert_eq!(all[0], hours().map(traded).sum::<u64>(), "{name}");
        assert_eq!(all[2], hours().map(paid).sum::<u64>(), "{name}");
        // "Portfolios with an order stand in rising order".
        let mut portfolios: Vec<u32> = records.iter().map(|record| record.0).collect();
        portfolios.sort();
        portfolios.dedup();
        assert_eq!(lines.iter().map(|line| line.0).collect::<Vec<u32>>(), portfolios, "{name}");
        for (portfolio, line) in &lines {
            let own: Vec<_> = records.iter().filter(|it| it.0 == *portfolio).copied().collect();
            assert_eq!(*line, account(&own), "{name}, portfolio {portfolio}");
        }
        self.count(&accepted, &lines);
    }

    fn count(&mut self, book: &Book, lines: &[(u32, Line)]) {
        let some = |found: bool| u32::from(found);
        let any = |test: &dyn Fn(&(u32, Line)) -> bool| some(lines.iter().any(test));
        let has_step = |portfolio: u32| book.steps.iter().any(|step| step.portfolio == portfolio);
        self.books += 1;
        self.trades += any(&|(_, line)| line[0] + line[1] > 0);
        self.got_nothing += any(&|(_, line)| *line == [0; 4]);
        self.both_sides += any(&|(_, line)| line[0] > 0 && line[1] > 0);
        self.blocks_alone += any(&|(portfolio, line)| !has_step(*portfolio) && line[1] > 0);
        self.all_portfolios += some(lines.len() == 255);
    }
}

#[test]
fn sheets_of_random_books() {
    let mut met = Variety::default();
    for seed in 0..count("BOOKS", 1_800) {
        let (day, edition) = DAYS_AND_EDITIONS[seed as usize % DAYS_AND_EDITIONS.len()];
        let on = format!("on({day}, {edition}, {seed})");
        met.look_at(&format!("small_book_{on}"), &small_book_on(day, edition, seed));
        met.look_at(&format!("cash_book_{on}"), &cash_book_on(day, edition, seed));
        if seed % 60 == 0 {
            met.look_at(&format!("crowded_book_{on}"), &crowded_book_on(day, edition, seed));
        }
    }
    println!("{met:?}");
    assert!(met.trades >= 2_000 && met.got_nothing >= 1_000 && met.both_sides >= 500);
    assert!(met.blocks_alone >= 100 && met.all_portfolios >= 30);
}

/// A line says what its portfolio's own orders got and nothing of whose the others are, and
/// the totals nothing of whose any is.
#[test]
fn a_line_is_of_its_own_orders() {
    let mut changed = 0;
    for seed in 0..count("BOOKS", 900) {
        let (day, edition) = DAYS_AND_EDITIONS[seed as usize % DAYS_AND_EDITIONS.len()];
        let mut dice = Dice::new(seed);
        let orders = cash_orders_on(day, edition, &mut dice);
        let Some(own) = orders.steps.first().map(|step| step.portfolio) else { continue };
        let before = CashSheet::of_book(&orders.book());
        let mut others = orders.clone();
        for step in others.steps.iter_mut().filter(|step| step.portfolio != own) {
            step.portfolio = dice.pick(&[251, 252, 253, 254].map(|it| it - u32::from(it == own)));
        }
        let after = CashSheet::of_book(&others.book());
        assert_eq!(after.line(own), before.line(own), "seed {seed}");
        assert_eq!(after.all, before.all, "seed {seed}");
        changed += u32::from(after != before);
        // The steps of two portfolios in one: their lines are added up.
        let mut joined = orders.clone();
        joined.steps.iter_mut().for_each(|step| step.portfolio = own);
        let joined = CashSheet::of_book(&joined.book());
        let owners: Vec<u32> = orders.blocks.iter().map(|block| block.portfolio).collect();
        if !owners.iter().any(|owner| orders.steps.iter().any(|step| step.portfolio == *owner)) {
            let of_steps = before.lines.iter().filter(|(other, _)| !owners.contains(other));
            assert_eq!(joined.line(own), Some(sum(of_steps.map(|line| line.1))), "seed {seed}");
        }
        assert_eq!(joined.all, before.all, "seed {seed}");
    }
    assert!(changed >= 200);
}

/// Editions 1 to 3 say what may be entered, and nothing of cash.
#[test]
fn the_same_orders_in_each_edition() {
    for (seed, day) in (0..300).flat_map(|seed| DAYS.map(|day| (seed, day))) {
        let orders = cash_orders_on(day, 1, &mut Dice::new(seed));
        let [first, second, third] =
            [1, 2, 3].map(|edition| cash(&orders.clone().of_edition(edition).book()));
        assert!(first == second && second == third, "seed {seed}, {day} hours");
    }
}

/// As many lines as there may be, with the largest numbers: far below 22,564 bytes.
#[test]
fn the_longest_sheets() {
    let mut orders = Orders::new().on_day_of(25);
    for index in 0..2_047 {
        let portfolio = 255 - index % 255;
        let side = if index % 2 == 0 { Buy } else { Sell };
        orders = orders.step(side, 3, 300_000, 99_999, portfolio);
    }
    let text = cash_text(&orders);
    let CashSheet { lines, all } = CashSheet::of(&text);
    assert_eq!((lines.len(), text.lines().count()), (255, 257));
    // Of 1,024 buys as much as the 1,023 sells have, each twice, at 300000.
    let quantity = 2 * 1_023 * 99_999;
    assert_eq!(all, [quantity, quantity, quantity * 300_000, quantity * 300_000]);
    assert!(text.len() < 22_564, "{} bytes", text.len());
}
