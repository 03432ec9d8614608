//! The implementation against itself, in slower words, on random books of all
//! editions and of days of 23, 24 and 25 hours: prices by scan, "does not clear" by its
//! rule, demand 2 by its properties, and demand 3 by the list of all contenders.
//!
//! Environment variables raise the counts: SCANS for the slow scan of all prices,
//! BOOKS for all others.

use auction_listing::books::{
    count, pricing_case_of, pricing_case_on, raised, shared_book_on, shifted_book_on,
    small_book_of, small_book_on, tiny_book_of, tiny_book_on, tiny_shifted_book_on, DAYS,
    DAYS_AND_EDITIONS,
};
use auction_listing::paper::{
    beyond_totals, candidates, clear, clears, contenders, executed, for_each_contender,
    keeps_limit, net_block_sales, outcome, price_hour, price_hour_by_scan, read, result_length,
    scan, tie_goes_to, Book, HourAnswer, Published, Side, Step,
};
use std::cmp::Reverse;

fn cleared(book: &[u8]) -> (Book, Published) {
    let accepted = read(book).expect("accepted");
    let result = clear(book, result_length(accepted.record_count)).expect("cleared");
    (accepted, Published::from_bytes(&result))
}

/// Every price tried, against the prices next to orders only; and "does not
/// clear" given exactly where N is beyond the totals.
#[test]
fn candidates_agree_with_the_scan() {
    compare_with_the_scan(|seed| of_edition(1, seed));
}

#[test]
fn candidates_agree_with_the_scan_in_edition_2() {
    compare_with_the_scan(|seed| of_edition(2, seed));
}

/// Pricing takes any set, whether it holds its blocks' parents or not.
#[test]
fn candidates_agree_with_the_scan_in_edition_3() {
    compare_with_the_scan(|seed| of_edition(3, seed));
}

#[test]
fn candidates_agree_with_the_scan_on_all_days() {
    compare_with_the_scan(|seed| {
        let (day, edition) = day_and_edition(seed);
        let name = format!("pricing_case_on({day}, {edition}, {seed})");
        (name, pricing_case_on(day, edition, seed))
    });
}

/// A day and an edition for each seed, all of them in turn.
fn day_and_edition(seed: u64) -> (u32, u32) {
    DAYS_AND_EDITIONS[seed as usize % DAYS_AND_EDITIONS.len()]
}

/// A book with a set and an hour, and its name.
type Case = (String, (Vec<u8>, u32, u32));

fn of_edition(edition: u32, seed: u64) -> Case {
    (format!("pricing_case_of({edition}, {seed})"), pricing_case_of(edition, seed))
}

fn compare_with_the_scan(case: fn(u64) -> Case) {
    let mut met = [0; 3];
    let mut beyond = [0; 2];
    for seed in 0..count("SCANS", 1_200) {
        let (name, (book, set, hour)) = case(seed);
        let answer = price_hour(&book, set, hour);
        assert_eq!(answer, price_hour_by_scan(&book, set, hour), "{name}");
        met[match answer {
            HourAnswer::Cleared { .. } => 0,
            HourAnswer::NotClearing => 1,
            HourAnswer::Refused(_) => 2,
        }] += 1;
        if let HourAnswer::Refused(refusal) = answer {
            assert_eq!(refusal, 8);
            continue;
        }
        // Where the totals say that nothing clears, the scan finds nothing; where
        // they do not, `price_hour_by_scan` has found something.
        if answer == HourAnswer::NotClearing {
            let book = read(&book).unwrap();
            let (steps, n) = (book.steps_of(hour), net_block_sales(&book.blocks, set, hour));
            assert!(beyond_totals(&steps, n), "{name}");
            beyond[usize::from(n < 0)] += 1;
            assert_eq!(scan(&steps, n), None, "{name}");
            assert_eq!(candidates(&steps, n), None, "{name}");
        }
    }
    println!("cleared, not clearing, refused: {met:?}");
    println!("of those not clearing, beyond the buys and beyond the sells: {beyond:?}");
    assert!(met.iter().all(|&answers| answers >= 100), "{met:?}");
    assert!(beyond.iter().all(|&answers| answers >= 50), "{beyond:?}");
}

/// A number of seeds for each of the editions.
fn of_all_editions(seeds: u64) -> impl Iterator<Item = (u32, u64)> {
    [1, 2, 3, 4].into_iter().flat_map(move |edition| (0..seeds).map(move |seed| (edition, seed)))
}

/// Every price from L to H clears and executes the same quantities, so the
/// middle price does too.
#[test]
fn all_prices_between_the_ends_execute_the_same() {
    for (edition, seed) in of_all_editions(count("BOOKS", 2_000)) {
        let (book, set, hour) = pricing_case_of(edition, seed);
        let name = format!("pricing_case_of({edition}, {seed})");
        let HourAnswer::Cleared { low, high, price } = price_hour(&book, set, hour) else {
            continue;
        };
        let book = read(&book).unwrap();
        let (steps, n) = (book.steps_of(hour), net_block_sales(&book.blocks, set, hour));
        let quantities = executed(&steps, n, price);
        for other in [low, low + (high - low) / 3, price, high] {
            assert!(clears(&steps, n, other), "{name}");
            assert_eq!(executed(&steps, n, other), quantities, "{name}");
        }
        assert!(low == 1 || !clears(&steps, n, low - 1), "{name}");
        assert!(high == 300_000 || !clears(&steps, n, high + 1), "{name}");
    }
}

/// Demand 2, read off the result: better steps in full, worse ones not, those at the price
/// by their shares, every hour in balance, no block outside its limit.
#[test]
fn results_obey_the_outcome_properties() {
    for (edition, seed) in of_all_editions(count("BOOKS", 1_000)) {
        let name = format!("small_book_of({edition}, {seed})");
        check_outcome(&small_book_of(edition, seed), &name);
    }
    for seed in 0..count("BOOKS", 1_000) {
        let (day, edition) = day_and_edition(seed);
        let of_seed = format!("on({day}, {edition}, {seed})");
        check_outcome(&small_book_on(day, edition, seed), &format!("small_book_{of_seed}"));
        check_outcome(&shared_book_on(day, edition, seed), &format!("shared_book_{of_seed}"));
        // Their blocks are too large for edition 1.
        let edition = edition.max(2);
        let name = format!("shifted_book_on({day}, {edition}, {seed})");
        check_outcome(&shifted_book_on(day, edition, seed), &name);
    }
}

fn check_outcome(book: &[u8], name: &str) {
    let (book, published) = cleared(book);
    let set = published.set(&book);
    let prices: [u32; 24] = published.prices.clone().try_into().unwrap();
    for (position, block) in book.blocks.iter().enumerate() {
        let taken = (set >> position) & 1 == 1;
        let row = published.row(block.record);
        assert_eq!(row, if taken { block.quantity } else { 0 }, "{name}");
        assert!(!taken || keeps_limit(&book, block, &prices), "{name}");
    }
    for hour in 1..=24 {
        if book.hours.contains(&hour) {
            check_hour(&book, &published, set, hour, name);
        } else {
            let index = hour as usize - 1;
            assert_eq!((prices[index], published.traded[index]), (0, 0), "{name}, hour {hour}");
        }
    }
}

fn check_hour(book: &Book, published: &Published, set: u32, hour: u32, name: &str) {
    let price = published.prices[hour as usize - 1];
    let mut bought = 0;
    let mut sold = 0;
    for step in book.steps_of(hour) {
        let row = published.row(step.record);
        let (better, worse) = match step.side {
            Side::Buy => (step.price > price, step.price < price),
            Side::Sell => (step.price < price, step.price > price),
        };
        assert!(row <= step.quantity, "{name}");
        assert!(!better || row == step.quantity, "{name}");
        assert!(!worse || row == 0, "{name}");
        match step.side {
            Side::Buy => bought += row,
            Side::Sell => sold += row,
        }
    }
    for side in [Side::Buy, Side::Sell] {
        let steps = book.steps_of(hour).into_iter();
        let at_price = steps.filter(|step| step.side == side && step.price == price);
        check_shares(&at_price.collect::<Vec<_>>(), published, name);
    }
    for (position, block) in book.blocks.iter().enumerate() {
        if (set >> position) & 1 == 1 && block.has_hour(hour) {
            match block.side {
                Side::Buy => bought += block.quantity,
                Side::Sell => sold += block.quantity,
            }
        }
    }
    assert_eq!(bought, sold, "{name}, hour {hour}");
    assert_eq!(bought, published.traded[hour as usize - 1], "{name}, hour {hour}");
}

/// The rows of a side's steps at the price: each its part of what they have together, rounded
/// down, or one more, which none has before one with a larger remainder, or with an equal one
/// and a lower number.
fn check_shares(steps: &[Step], published: &Published, name: &str) {
    let row = |step: &Step| u64::from(published.row(step.record));
    let total: u64 = steps.iter().map(|step| u64::from(step.quantity)).sum();
    let amount: u64 = steps.iter().map(row).sum();
    let product = |step: &Step| u64::from(step.quantity) * amount;
    let has_more = |step: &Step| row(step) > product(step) / total;
    let turn = |step: &Step| (Reverse(product(step) % total), step.number);
    let last_with = steps.iter().filter(|step| has_more(step)).map(turn).max();
    let first_without = steps.iter().filter(|step| !has_more(step)).map(turn).min();
    for step in steps {
        let more = u64::from(has_more(step));
        assert_eq!(row(step), product(step) / total + more, "{name}, step {}", step.number);
    }
    if let (Some(with), Some(without)) = (last_with, first_without) {
        assert!(with < without, "{name}: {with:?} has one more, {without:?} has not");
    }
}

/// Demand 3 against the list of every contender.
#[test]
fn clearing_agrees_with_all_contenders() {
    compare_with_contenders(count("BOOKS", 400), |seed| {
        (format!("tiny_book({seed})"), tiny_book_of(1, seed))
    });
}

/// Their lists are longer: blocks of more than 50 need steps to be traded with.
#[test]
fn clearing_agrees_with_all_contenders_in_edition_2() {
    compare_with_contenders(count("BOOKS", 200), |seed| {
        (format!("tiny_book_of(2, {seed})"), tiny_book_of(2, seed))
    });
}

#[test]
fn clearing_agrees_with_all_contenders_in_edition_3() {
    compare_with_contenders(count("BOOKS", 400), |seed| {
        (format!("tiny_book_of(3, {seed})"), tiny_book_of(3, seed))
    });
}

/// Contenders, too, are held to the prices at a set's shift.
#[test]
fn clearing_agrees_with_all_contenders_in_edition_4() {
    compare_with_contenders(count("BOOKS", 400), |seed| {
        let day = DAYS[seed as usize % DAYS.len()];
        let name = format!("tiny_shifted_book_on({day}, 4, {seed})");
        (name, tiny_shifted_book_on(day, 4, seed))
    });
}

/// Contenders, too, need no balance in an hour that counts nowhere.
#[test]
fn clearing_agrees_with_all_contenders_on_all_days() {
    compare_with_contenders(count("BOOKS", 240), |seed| {
        let (day, edition) = day_and_edition(seed);
        let name = format!("tiny_book_on({day}, {edition}, {seed})");
        (name, tiny_book_on(day, edition, seed))
    });
}

fn compare_with_contenders(seeds: u64, book: fn(u64) -> (String, Vec<u8>)) {
    let mut ties = 0;
    let mut taken = 0;
    for seed in 0..seeds {
        let (name, bytes) = book(seed);
        let (book, published) = cleared(&bytes);
        let best = contenders(&bytes).unwrap();
        let set = published.set(&book);
        assert_eq!(i128::from(published.welfare), best.welfare, "{name}");
        assert_eq!(set, best.set, "{name}");
        // The published one is itself a contender, with this welfare, and wins
        // every tie.
        let rows = book.steps.iter().map(|step| i64::from(published.row(step.record)));
        let rows: Vec<i64> = rows.collect();
        let mut found = false;
        let mut tied = false;
        for_each_contender(&book, &mut |other| {
            assert!(other.welfare <= best.welfare, "{name}");
            if other.set == set && other.quantities == rows {
                assert_eq!(other.welfare, best.welfare, "{name}");
                found = true;
            }
            if other.set != set && other.welfare == best.welfare {
                assert!(tie_goes_to(set, other.set), "{name}");
                tied = true;
            }
        });
        assert!(found, "{name}: the published outcome is no contender");
        ties += u64::from(tied);
        taken += u64::from(set != 0);
    }
    println!("books with blocks taken: {taken}, with a tie between sets: {ties}");
    assert!(taken >= 40 && ties >= 20, "the books are too plain: {taken} and {ties}");
}

/// The small books are worth comparing on: blocks taken and left out, ties
/// between lawful sets, and blocks left out although the prices would pay them.
#[test]
fn small_books_are_varied() {
    let mut met = Variety::default();
    for seed in 0..count("BOOKS", 1_500) {
        met.look_at(&small_book_of(1, seed));
    }
    println!("{met:?}");
    met.is_enough();
    assert!(met.no_blocks >= 50);
    assert!(met.nine_blocks >= 50);
    assert_eq!((met.six_of_a_portfolio, met.more_than_50_taken), (0, 0));
}

/// Those of edition 2 as well, with what edition 1 does not allow.
#[test]
fn small_books_of_edition_2_are_varied() {
    let mut met = Variety::default();
    for seed in 0..count("BOOKS", 1_500) {
        met.look_at(&small_book_of(2, seed));
    }
    println!("{met:?}");
    met.is_enough();
    assert!(met.six_of_a_portfolio >= 500);
    assert!(met.ten_of_a_portfolio >= 100);
    assert!(met.six_of_a_portfolio_taken >= 50);
    assert!(met.more_than_50_taken >= 200);
    assert!(met.more_than_50_left_out >= 200);
    assert!(met.full_quantity_taken >= 50);
}

/// And those of edition 3; `links` has what is said of their links.
#[test]
fn small_books_of_edition_3_are_varied() {
    let mut met = Variety::default();
    for seed in 0..count("BOOKS", 1_500) {
        met.look_at(&small_book_of(3, seed));
    }
    println!("{met:?}");
    met.is_enough();
    assert!(met.ten_of_a_portfolio >= 100);
    assert!(met.more_than_50_taken >= 200);
}

#[derive(Debug, Default)]
struct Variety {
    no_blocks: u32,
    nine_blocks: u32,
    six_of_a_portfolio: u32,
    ten_of_a_portfolio: u32,
    six_of_a_portfolio_taken: u32,
    more_than_50_taken: u32,
    more_than_50_left_out: u32,
    full_quantity_taken: u32,
    some_taken: u32,
    all_left_out: u32,
    both_sides_taken: u32,
    tie_between_sets: u32,
    paid_but_left_out: u32,
}

impl Variety {
    fn is_enough(&self) {
        assert!(self.some_taken >= 200);
        assert!(self.all_left_out >= 200);
        assert!(self.tie_between_sets >= 100);
        assert!(self.paid_but_left_out >= 100);
        assert!(self.both_sides_taken >= 50);
    }

    fn look_at(&mut self, bytes: &[u8]) {
        let (book, published) = cleared(bytes);
        let set = published.set(&book);
        let prices: [u32; 24] = published.prices.clone().try_into().unwrap();
        let blocks = || book.blocks.iter().enumerate();
        let is_taken = |position: usize| (set >> position) & 1 == 1;
        let takes = |side| blocks().any(|(p, block)| is_taken(p) && block.side == side);
        let welfare = i128::from(published.welfare);
        let ties = |other: u32| outcome(&book, other).is_some_and(|o| o.welfare == welfare);
        self.no_blocks += u32::from(book.blocks.is_empty());
        self.nine_blocks += u32::from(book.blocks.len() == 9);
        self.some_taken += u32::from(set != 0);
        self.all_left_out += u32::from(set == 0 && !book.blocks.is_empty());
        self.both_sides_taken += u32::from(takes(Side::Buy) && takes(Side::Sell));
        self.tie_between_sets +=
            u32::from((0..1 << book.blocks.len()).any(|other| other != set && ties(other)));
        self.paid_but_left_out += u32::from(
            blocks().any(|(p, block)| !is_taken(p) && keeps_limit(&book, block, &prices)),
        );
        let of_one = |wanted: &dyn Fn(usize) -> bool| {
            let count = |portfolio| {
                blocks().filter(|&(p, b)| b.portfolio == portfolio && wanted(p)).count()
            };
            (1..=255).map(count).max().unwrap_or(0)
        };
        self.six_of_a_portfolio += u32::from(of_one(&|_| true) >= 6);
        self.ten_of_a_portfolio += u32::from(of_one(&|_| true) == 10);
        self.six_of_a_portfolio_taken += u32::from(of_one(&is_taken) >= 6);
        let large = |taken: bool, least: u32| {
            u32::from(blocks().any(|(p, block)| is_taken(p) == taken && block.quantity >= least))
        };
        self.more_than_50_taken += large(true, 51);
        self.more_than_50_left_out += large(false, 51);
        self.full_quantity_taken += large(true, 250);
    }
}

/// The comparison of two sets: the lowest block in which they differ decides.
#[test]
fn ties() {
    assert!(tie_goes_to(0b001, 0b110));
    assert!(!tie_goes_to(0b110, 0b001));
    assert!(tie_goes_to(0b011, 0b001));
    assert!(tie_goes_to(0b101, 0b110));
    assert!(tie_goes_to(1 << 31, 0));
    assert!(!tie_goes_to(5, 5));
}

/// A count is raised by its variable and never lowered.
#[test]
fn counts_are_raised() {
    assert_eq!(raised(None, 400), 400);
    assert_eq!(raised(Some("0"), 400), 400);
    assert_eq!(raised(Some("399"), 400), 400);
    assert_eq!(raised(Some("401"), 400), 401);
    for no_number in ["", "-1", "many"] {
        assert!(std::panic::catch_unwind(|| raised(Some(no_number), 400)).is_err());
    }
}
