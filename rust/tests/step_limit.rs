//! Document 02, P8: "At most 256 steps". Refusal 11 at and beside its limit, in every edition,
//! and among the other causes.

use auction_listing::books::{
    book_with_causes_on, own_causes, reader_book_of, reader_book_on, step_limit_book,
    step_limit_edges, steps_256, Dice, Met, Orders, DAYS, DAYS_AND_EDITIONS, MOST_STEPS,
    OWN_CAUSES,
};
use auction_listing::paper::{
    cash, clear, families, price_hour, read, result_length, sheet, HourAnswer, Published,
    Side::{self, Buy, Sell},
};
use auction_listing::text::{to_book, to_text};

const LIMITED: u32 = 4;

fn refusal(book: &[u8]) -> u8 {
    read(book).err().unwrap_or(0)
}

fn refusal_in(edition: u32, orders: &Orders) -> u8 {
    refusal(&orders.clone().of_edition(edition).book())
}

/// So many steps of a portfolio in an hour, behind those that there are.
fn with(orders: Orders, count: usize, side: Side, hour: u32, portfolio: u32) -> Orders {
    (0..count).fold(orders, |orders, _| orders.step(side, hour, 3_000, 10, portfolio))
}

fn steps(count: usize, side: Side, hour: u32, portfolio: u32) -> Orders {
    with(Orders::new(), count, side, hour, portfolio)
}

/// "more than 256 steps of a portfolio in one hour": 256 are accepted and 257 are not, "Editions
/// 1 to 3 have no such limit".
#[test]
fn the_limit() {
    for (count, expected) in [(1, 0), (255, 0), (256, 0), (257, 11), (258, 11), (2_047, 11)] {
        for (hour, portfolio) in [(1, 1), (24, 255), (3, 9), (12, 128)] {
            for side in [Buy, Sell] {
                let orders = steps(count, side, hour, portfolio);
                assert_eq!(refusal_in(LIMITED, &orders), expected, "{count} steps");
                for edition in [1, 2, 3] {
                    assert_eq!(refusal_in(edition, &orders), 0, "{count} in edition {edition}");
                }
            }
        }
    }
}

/// Both sides count together.
#[test]
fn both_sides_together() {
    for (buys, sells, expected) in [(128, 128, 0), (128, 129, 11), (1, 256, 11), (255, 1, 0)] {
        let orders = with(steps(buys, Buy, 7, 3), sells, Sell, 7, 3);
        assert_eq!(refusal_in(LIMITED, &orders), expected, "{buys} and {sells}");
        // Wherever they stand on the chain.
        let mut mixed = orders;
        Dice::new(5).shuffle(&mut mixed.steps);
        (1..).zip(&mut mixed.steps).for_each(|(number, step)| step.number = number);
        assert_eq!(refusal_in(LIMITED, &mixed), expected, "{buys} and {sells}, mixed");
    }
}

/// Each portfolio and each hour by itself; blocks are no steps.
#[test]
fn two_portfolios_and_two_hours() {
    let full = steps(MOST_STEPS, Buy, 1, 1);
    assert_eq!(refusal_in(LIMITED, &with(full.clone(), MOST_STEPS, Sell, 1, 2)), 0);
    assert_eq!(refusal_in(LIMITED, &with(full.clone(), MOST_STEPS, Sell, 2, 1)), 0);
    assert_eq!(refusal_in(LIMITED, &with(full.clone(), MOST_STEPS + 1, Sell, 1, 2)), 11);
    assert_eq!(refusal_in(LIMITED, &with(full.clone(), MOST_STEPS + 1, Sell, 2, 1)), 11);
    let every_hour = (1..=7).fold(Orders::new(), |all, hour| with(all, MOST_STEPS, Buy, hour, 1));
    assert_eq!(refusal_in(LIMITED, &every_hour), 0);
    let with_blocks = (0..10).fold(full, |all, _| all.block(Sell, &[1, 2], 2_900, 50, 1));
    assert_eq!(refusal_in(LIMITED, &with_blocks), 0);
}

/// Hour 3 counts twice on a day of 25 hours in prices, and its steps once.
#[test]
fn hour_3_of_a_long_day() {
    for (count, expected) in [(129, 0), (256, 0), (257, 11)] {
        let orders = steps(count, Buy, 3, 1).on_day_of(25);
        assert_eq!(refusal_in(LIMITED, &orders), expected, "{count} steps");
    }
    // On a day of 23 hours 9 comes first.
    assert_eq!(refusal_in(LIMITED, &steps(257, Buy, 3, 1).on_day_of(23)), 9);
}

/// "11 .., after 10", and so after 1 to 6 and 9, and before 7 and 8.
#[test]
fn eleven_among_the_others() {
    let crowded = with(Orders::new(), MOST_STEPS + 1, Buy, 1, 3)
        .block(Sell, &[1, 2], 2_900, 50, 3)
        .block(Sell, &[1, 2], 2_800, 50, 3)
        .of_edition(LIMITED);
    let changed = |change: &dyn Fn(&mut Orders)| {
        let mut orders = crowded.clone();
        change(&mut orders);
        refusal(&orders.book())
    };
    assert_eq!(changed(&|_| ()), 11);
    assert_eq!(changed(&|orders| *orders = orders.clone().link(2, 1)), 11);
    assert_eq!(changed(&|orders| *orders = orders.clone().link(2, 5)), 10);
    assert_eq!(changed(&|orders| *orders = orders.clone().link(1, 2)), 10);
    assert_eq!(changed(&|orders| (orders.day, orders.steps[0].hour) = (23, 3)), 9);
    assert_eq!(changed(&|orders| (orders.day, orders.blocks[0].hours) = (23, 0b110)), 9);
    assert_eq!(changed(&|orders| orders.steps[4].number = 4), 3);
    assert_eq!(changed(&|orders| orders.steps[4].price = 0), 4);
    assert_eq!(changed(&|orders| orders.edition = 5), 2);
    assert_eq!(changed(&|orders| orders.edition = 3), 0);
    assert_eq!(
        changed(&|orders| {
            *orders = (0..9).fold(orders.clone(), |all, _| all.block(Buy, &[1, 2], 1, 1, 3))
        }),
        6
    );
    let book = crowded.book();
    let mut stray = [&book[..], &[0; 16]].concat();
    stray[1] += 1;
    assert_eq!(refusal(&stray), 5);
    assert_eq!(refusal(&book[..book.len() - 1]), 1);
    // Before a wrong buffer, an hour or a set that are not there.
    assert_eq!(clear(&book, 0).err(), Some(11));
    for (set, hour) in [(0, 1), (0, 99), (4, 1), (u32::MAX, 0)] {
        assert_eq!(price_hour(&book, set, hour), HourAnswer::Refused(11));
    }
}

/// Every call gives it.
#[test]
fn every_call() {
    let book = steps(MOST_STEPS + 1, Buy, 1, 3).of_edition(LIMITED).book();
    assert_eq!(clear(&book, result_length(book.len() / 16)).err(), Some(11));
    for text in [sheet(&book), families(&book), cash(&book)] {
        assert_eq!(text, b"refused;11\n");
    }
    assert_eq!(to_text(&book), Err(11));
}

/// Each cause alone and every pair of causes in edition 4: the first of them is given.
#[test]
fn the_first_cause_is_given() {
    let mut dice = Dice::new(1);
    let place = |cause| OWN_CAUSES.iter().position(|&other| other == cause);
    for day in DAYS {
        for other in own_causes(day, LIMITED) {
            let expected = if place(11) <= place(other) { 11 } else { other };
            for _ in 0..40 {
                let book = book_with_causes_on(day, LIMITED, &[11, other], &mut dice);
                assert_eq!(refusal(&book), expected, "11 and {other}, {} bytes", book.len());
            }
        }
    }
    for edition in [1, 2, 3] {
        assert!(!own_causes(23, edition).contains(&11));
    }
}

/// The edges have every answer, and so have the random books.
#[test]
fn every_refusal_is_met() {
    let met: Met = step_limit_edges().iter().map(|book| refusal(book)).collect();
    met.has_each([0, 1, 2, 3, 4, 5, 6, 9, 10, 11], 1);
    let met: Met = (0..4_000).map(|seed| refusal(&reader_book_of(LIMITED, seed))).collect();
    met.has_each([0, 1, 2, 3, 4, 5, 6, 10, 11], 20);
    let on = |seed| reader_book_on(DAYS[seed as usize % 3], LIMITED, seed);
    let met: Met = (0..4_000).map(|seed| refusal(&on(seed))).collect();
    met.has_each([0, 1, 2, 3, 4, 5, 6, 9, 10, 11], 20);
}

/// About the limit, in edition 4 alone some are refused.
#[test]
fn books_about_the_limit() {
    for (day, edition) in DAYS_AND_EDITIONS {
        let met: Met = (0..150).map(|seed| refusal(&step_limit_book(day, edition, seed))).collect();
        let expected: &[u8] = if edition == LIMITED { &[0, 11] } else { &[0] };
        met.has_each(expected.iter().copied(), 30);
        let known: u64 = expected.iter().map(|&answer| met.count(answer)).sum();
        assert_eq!(known, met.all(), "{day} hours, edition {edition}: {met:?}");
    }
}

/// The sample of 256 steps by hand, and the text of one more.
#[test]
fn steps_256_by_hand() {
    let book = steps_256().book();
    let day = Published::from_bytes(&clear(&book, result_length(book.len() / 16)).unwrap());
    assert_eq!((day.prices[0], day.traded[0], day.welfare), (4_000, 1_280, 10 * 128 * 128));
    assert!(day.rows[..256].iter().all(|&row| row == 10));
    let text = to_text(&book).unwrap();
    let more = format!("{text}step buy hour 1 price 1 quantity 1 portfolio 1\n");
    let error = to_book(&more).unwrap_err().to_string();
    assert!(error.ends_with("step 257 of portfolio 1 in hour 1; expected at most 256"), "{error}");
    assert!(to_book(&more.replace("edition 4", "edition 3")).is_ok());
}
