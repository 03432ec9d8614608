//! Document 02, P2: days of 23 and 25 hours, written down from the paper. What is said here
//! is the listing's own; `proved_days` holds the proved calls to the listing.

use auction_listing::books::{
    block_beside_the_day, book_with_causes_on, count, day_edges, day_of_23_hours, day_of_25_hours,
    every_byte_changed, hour_bits, hours_in, own_causes, reader_book_on, small_book_on,
    small_orders_on, step_beside_the_day, tiny_book_on, Dice, Met, Orders, StepOrder, DAYS,
    DAYS_AND_EDITIONS, OWN_CAUSES,
};
use auction_listing::paper::Side::{Buy, Sell};
use auction_listing::paper::{
    clear, keeps_limit, passing_hours, price_hour, read, result_length, sheet, Block, Book,
    HourAnswer, Published, DOES_NOT_CLEAR,
};

/// 0 for an accepted book.
fn refusal(book: &[u8]) -> u8 {
    read(book).err().unwrap_or(0)
}

/// The refusal of orders on a day.
fn refusal_on(day: u32, orders: &Orders) -> u8 {
    refusal(&orders.clone().on_day_of(day).book())
}

fn published(orders: &Orders) -> Published {
    let book = orders.book();
    Published::from_bytes(&clear(&book, result_length(book.len() / 16)).expect("cleared"))
}

/// Price and traded quantity of an hour.
fn hour_of(published: &Published, hour: usize) -> (u32, u32) {
    (published.prices[hour - 1], published.traded[hour - 1])
}

fn block_over(hours: &[u32]) -> Orders {
    Orders::new().block(Sell, hours, 2_900, 50, 3)
}

/// "Head byte 6 may be 25 or 23", in every edition.
#[test]
fn head_byte_6() {
    let orders = block_over(&[4, 5]).step(Buy, 1, 5_000, 100, 1);
    for edition in [1, 2, 3, 4] {
        for day in 0..=255 {
            let expected = if DAYS.contains(&day) { 0 } else { 2 };
            for orders in [Orders::new(), orders.clone()] {
                let found = refusal_on(day, &orders.of_edition(edition));
                assert_eq!(found, expected, "{day} hours in edition {edition}");
            }
        }
        for day in DAYS {
            let accepted = read(&Orders::new().of_edition(edition).on_day_of(day).book()).unwrap();
            assert_eq!(accepted.hours.len(), day as usize);
        }
    }
    // An edition that is not there is refused whatever the day.
    for (day, edition) in [(23, 0), (25, 5), (23, 255), (26, 4)] {
        assert_eq!(refusal_on(day, &orders.clone().of_edition(edition)), 2);
    }
}

/// The hours of each day, one after another.
#[test]
fn the_hours_as_they_pass() {
    let with = |hours_3: &[u32]| [&[1, 2], hours_3, &(4..=24).collect::<Vec<u32>>()].concat();
    assert_eq!(passing_hours(23), Some(with(&[])));
    assert_eq!(passing_hours(24), Some(with(&[3])));
    assert_eq!(passing_hours(25), Some(with(&[3, 3])));
    assert_eq!([0, 22, 26].map(passing_hours), [None, None, None]);
}

/// "9, a step for hour 3 .. on a 23-hour day."
#[test]
fn steps_of_each_hour() {
    for day in DAYS {
        for hour in 0..=26 {
            let expected = match hour {
                0 | 25 | 26 => 4,
                3 if day == 23 => 9,
                _ => 0,
            };
            let step = Orders::new().step(Buy, hour, 5_000, 100, 1);
            assert_eq!(refusal_on(day, &step), expected, "hour {hour} on {day}");
            // The last of several steps as well as the first.
            let last = Orders::new().step(Buy, 1, 5, 5, 5).step(Sell, hour, 5, 5, 5);
            assert_eq!(refusal_on(day, &last), expected, "hour {hour} last on {day}");
        }
    }
}

/// "9, .. a block with fewer than two counted hours on a 23-hour day"; fewer than two bits
/// stay refusal 4 on every day.
#[test]
fn blocks_of_one_two_and_three_hours() {
    for day in DAYS {
        assert_eq!(refusal_on(day, &block_over(&[])), 4);
        for one in 1..=24 {
            assert_eq!(refusal_on(day, &block_over(&[one])), 4, "hour {one} on {day}");
            for other in one + 1..=24 {
                let named = [one, other];
                let expected = if day == 23 && named.contains(&3) { 9 } else { 0 };
                assert_eq!(refusal_on(day, &block_over(&named)), expected, "{named:?} on {day}");
                for third in other + 1..=24 {
                    assert_eq!(refusal_on(day, &block_over(&[one, other, third])), 0);
                }
            }
        }
        // The last of several blocks as well as the first.
        let last = block_over(&[1, 2]).block(Buy, &[3, 24], 5, 5, 5);
        assert_eq!(refusal_on(day, &last), if day == 23 { 9 } else { 0 });
    }
}

/// "after 6 and before 7", so before 8 as well.
#[test]
fn nine_among_the_others() {
    for orders in [step_beside_the_day(), block_beside_the_day()] {
        let book = orders.book();
        assert_eq!(refusal(&book), 9);
        for length in [0, 196, result_length(book.len() / 16), 100_000] {
            assert_eq!(clear(&book, length), Err(9), "a result of {length} bytes");
        }
        for (set, hour) in [(0, 1), (0, 3), (0, 0), (0, 25), (u32::MAX, 1), (u32::MAX, 99)] {
            assert_eq!(price_hour(&book, set, hour), HourAnswer::Refused(9));
        }
        assert_eq!(sheet(&book), b"refused;9\n");
        // The same orders on the other days are right.
        assert_eq!((refusal_on(24, &orders), refusal_on(25, &orders)), (0, 0));
        let with = |change: &dyn Fn(&mut Orders)| {
            let mut changed = orders.clone();
            change(&mut changed);
            refusal(&changed.book())
        };
        assert_eq!(with(&|orders| orders.day = 22), 2);
        assert_eq!(with(&|orders| orders.edition = 5), 2);
        assert_eq!(with(&|orders| orders.edition = 4), 9);
        assert_eq!(with(&|orders| orders.edition = 3), 9);
        assert_eq!(with(&|orders| orders.steps[1].number = 1), 3);
        assert_eq!(with(&|orders| orders.steps[0].price = 0), 4);
        let crowded =
            |count| (0..count).fold(orders.clone(), |all, _| all.block(Buy, &[1, 2], 5, 5, 9));
        assert_eq!(refusal(&crowded(5).book()), 9);
        assert_eq!(refusal(&crowded(6).book()), 6);
        assert_eq!(refusal(&crowded(6).of_edition(2).book()), 9);
        let mut stray = [&book[..], &[0; 16]].concat();
        stray[1] += 1;
        assert_eq!(refusal(&stray), 5);
        assert_eq!(refusal(&book[..book.len() - 1]), 1);
    }
}

/// Each cause alone and every pair of causes on each day: the first of them is given.
#[test]
fn the_first_cause_is_given() {
    let mut dice = Dice::new(1);
    let place = |cause| OWN_CAUSES.iter().position(|&other| other == cause);
    for (day, edition) in DAYS_AND_EDITIONS {
        let causes = own_causes(day, edition);
        for (&one, &other) in causes.iter().flat_map(|one| causes.iter().map(move |it| (one, it))) {
            let expected = if place(one) <= place(other) { one } else { other };
            for _ in 0..60 {
                let book = book_with_causes_on(day, edition, &[one, other], &mut dice);
                assert_eq!(refusal(&book), expected, "causes {one} and {other}: {book:?}");
            }
        }
    }
}

/// "On 25, hour 3 has one price and one row but counts twice": S5 in hours 2 and 3.
#[test]
fn s5_on_a_day_of_25_hours() {
    let orders = day_of_25_hours();
    let day = published(&orders);
    assert_eq!(day.welfare, 615_000);
    assert_eq!(day.rows, [100, 50, 100, 50, 50]);
    for hour in 1..=24 {
        let expected = if [2, 3].contains(&hour) { (3_000, 100) } else { (150_000, 0) };
        assert_eq!(hour_of(&day, hour), expected, "hour {hour}");
    }
    assert_eq!(published(&orders.on_day_of(24)).welfare, 410_000);
}

/// "On 23, hour 3 counts nowhere and needs no balance, its row is 0 and 0": S5 in hours 2
/// and 4, its block over 2, 3 and 4.
#[test]
fn s5_on_a_day_of_23_hours() {
    let orders = day_of_23_hours();
    let day = published(&orders);
    assert_eq!(day.welfare, 410_000);
    // The block's row is its quantity.
    assert_eq!(day.rows, [100, 50, 100, 50, 50]);
    for hour in 1..=24 {
        let expected = match hour {
            2 | 4 => (3_000, 100),
            3 => (0, 0),
            _ => (150_000, 0),
        };
        assert_eq!(hour_of(&day, hour), expected, "hour {hour}");
    }
    let text = String::from_utf8(sheet(&orders.book())).unwrap();
    assert!(text.starts_with("hour;cents;tenths\n1;150000;0\n2;3000;100\n3;0;0\n4;3000;100\n"));
    assert!(text.ends_with("\nblock;taken\n1;1\nwelfare;410000\n"), "{text}");
    // On the other days nobody buys in hour 3 what the block sells there.
    for day in [24, 25] {
        let orders = orders.clone().on_day_of(day);
        assert_eq!(published(&orders).rows, [100, 100, 100, 100, 0]);
        assert_eq!(price_hour(&orders.book(), 1, 3), HourAnswer::NotClearing);
    }
}

/// "pricing it is refusal 8", under every set; what the blocks sell in it does not matter.
#[test]
fn pricing_on_a_day_of_23_hours() {
    let book = day_of_23_hours().book();
    for set in [0, 1, 2, u32::MAX] {
        assert_eq!(price_hour(&book, set, 3), HourAnswer::Refused(8), "set {set}");
    }
    let on_24 = day_of_23_hours().on_day_of(24).book();
    for (set, hour) in (0..=2).flat_map(|set| (0..=26).map(move |hour| (set, hour))) {
        if hour != 3 {
            assert_eq!(price_hour(&book, set, hour), price_hour(&on_24, set, hour));
        }
    }
    assert_eq!(price_hour(&on_24, 0, 3).parts(), [0, 1, 300_000, 150_000]);
    assert_eq!(price_hour(&on_24, 1, 3).parts(), [DOES_NOT_CLEAR, 0, 0, 0]);
    assert_eq!(price_hour(&book, 1, 3).parts(), [8, 0, 0, 0]);
    assert!(DOES_NOT_CLEAR > u32::from(u8::MAX));
}

/// A buy and a sell of 100 in each of the hours, at these prices.
fn market(hours: &[(u32, u32, u32)]) -> Orders {
    let add = |orders: Orders, &(hour, buys, sells): &(u32, u32, u32)| {
        orders.step(Buy, hour, buys, 100, 1).step(Sell, hour, sells, 100, 2)
    };
    hours.iter().fold(Orders::new(), add)
}

/// "counts twice in a block's sum, its hour count": a block of 50 meets the price of its
/// counterparts in each hour, so it is taken to the tick of their average, each hour counted
/// as the day counts it, and no further.
#[test]
fn limits_to_the_tick() {
    let market = market(&[(2, 8_000, 3_000), (3, 12_000, 6_000), (4, 9_000, 4_000)]);
    // (day, hours, the last price of a sell, the first of a buy)
    let cases: [(u32, &[u32], u32, u32); 8] = [
        (24, &[2, 3], 4_500, 10_000),
        // (3000 + 2 x 6000) / 3, (8000 + 2 x 12000) / 3 = 10666.7
        (25, &[2, 3], 5_000, 10_667),
        (24, &[2, 3, 4], 4_333, 9_667),
        (25, &[2, 3, 4], 4_750, 10_250),
        (25, &[3, 4], 5_333, 11_000),
        (23, &[2, 3, 4], 3_500, 8_500),
        (23, &[2, 4], 3_500, 8_500),
        (25, &[2, 4], 3_500, 8_500),
    ];
    for (day, hours, sells_at, buys_at) in cases {
        let mut steps = market.clone().on_day_of(day);
        steps.steps.retain(|step| day != 23 || step.hour != 3);
        let taken = |side, price| {
            let orders = steps.clone().block(side, hours, price, 50, 3);
            published(&orders).row(orders.count()) == 50
        };
        let name = format!("hours {hours:?} on {day}");
        assert!(taken(Sell, sells_at) && !taken(Sell, sells_at + 1), "a sell of {name}");
        assert!(taken(Buy, buys_at) && !taken(Buy, buys_at - 1), "a buy of {name}");
    }
}

/// "counts twice in .. welfare", that of steps as well; its traded row does not.
#[test]
fn steps_of_an_hour_that_passes_twice() {
    let orders = market(&[(3, 5_000, 3_000), (4, 5_000, 3_000)]);
    let (on_24, on_25) = (published(&orders), published(&orders.clone().on_day_of(25)));
    assert_eq!((on_24.welfare, on_25.welfare), (400_000, 600_000));
    assert_eq!(hour_of(&on_25, 3), (4_000, 100));
    assert_eq!((on_24.prices, on_24.traded, on_24.rows), (on_25.prices, on_25.traded, on_25.rows));
}

/// "Best is judged under these counts": of two blocks that sell too much together, one over
/// hours 2 and 4 gains 2 x 300, the other over hours 2, 3 and 4 gains its distance in as
/// many hours as the day counts.
#[test]
fn best_by_the_counts() {
    let taken = |day: u32, distance: u32| {
        let hours = [(2, 5_000, 3_000), (3, 5_000, 3_000), (4, 5_000, 3_000)];
        let mut orders = market(&hours).of_edition(2).on_day_of(day);
        orders.steps.retain(|step| day != 23 || step.hour != 3);
        let orders = orders.block(Sell, &[2, 4], 2_700, 60, 3).block(
            Sell,
            &[2, 3, 4],
            3_000 - distance,
            60,
            3,
        );
        published(&orders).set(&read(&orders.book()).unwrap())
    };
    let (one, other) = (0b01, 0b10);
    for (distance, on_23, on_24, on_25) in [
        (149, one, one, one),
        (151, one, one, other),
        (201, one, other, other),
        (301, other, other, other),
    ] {
        assert_eq!(DAYS.map(|day| taken(day, distance)), [on_23, on_24, on_25], "{distance}");
    }
}

/// Orders of a day of 23 or 25 hours on one of 24: without hour 3, or with its orders in
/// an hour that is not used as well. With the steps' places among the orders they are from.
fn unfolded(orders: &Orders) -> Option<(u32, Orders, Vec<usize>)> {
    let mut other = orders.clone().on_day_of(24);
    if orders.day == 23 {
        other.blocks.iter_mut().for_each(|block| block.hours &= !hour_bits(&[3]));
        return Some((3, other, (0..orders.steps.len()).collect()));
    }
    let is_used = |hour: &u32| {
        orders.steps.iter().any(|step| step.hour == *hour)
            || orders.blocks.iter().any(|block| hours_in(block.hours).contains(hour))
    };
    let spare = (1..=24).find(|hour| *hour != 3 && !is_used(hour))?;
    let (mut steps, mut places) = (Vec::new(), Vec::new());
    for (place, step) in orders.steps.iter().enumerate() {
        let copy = (step.hour == 3).then_some(spare);
        for hour in [Some(step.hour), copy].into_iter().flatten() {
            let number = steps.len() as u32 + 1;
            steps.push(StepOrder { number, hour, ..*step });
            places.push(place);
        }
    }
    for block in other.blocks.iter_mut().filter(|block| hours_in(block.hours).contains(&3)) {
        block.hours |= hour_bits(&[spare]);
    }
    Some((spare, Orders { steps, ..other }, places))
}

/// What is published of a day of 23 or 25 hours is what is published of one of 24 in which
/// hour 3 is left out or stands twice in full.
#[test]
fn days_unfolded_to_24_hours() {
    let mut compared = 0;
    for seed in 0..count("BOOKS", 600) {
        for (day, edition) in [(23, 1), (25, 1), (23, 2), (25, 2), (23, 3), (25, 3)] {
            let orders = small_orders_on(day, edition, &mut Dice::new(seed));
            let Some((spare, other, places)) = unfolded(&orders) else { continue };
            let name = format!("small_orders_on({day}, {edition}, Dice::new({seed}))");
            let (one, unfolded) = (published(&orders), published(&other));
            assert_eq!(one.welfare, unfolded.welfare, "{name}");
            for hour in (1..=24).filter(|&hour| hour != spare as usize) {
                assert_eq!(hour_of(&one, hour), hour_of(&unfolded, hour), "{name}, hour {hour}");
            }
            let nothing = if day == 23 { (0, 0) } else { (150_000, 0) };
            assert_eq!(hour_of(&one, spare as usize), nothing, "{name}");
            let again = if day == 23 { (150_000, 0) } else { hour_of(&one, 3) };
            assert_eq!(hour_of(&unfolded, spare as usize), again, "{name}");
            let steps = places.iter().map(|&place| one.rows[place]);
            let blocks = one.rows[orders.steps.len()..].iter().copied();
            assert!(steps.chain(blocks).eq(unfolded.rows), "{name}");
            compared += 1;
        }
    }
    println!("{compared} days unfolded");
    assert!(compared > 2_700);
}

#[test]
fn random_books_are_accepted() {
    for (day, edition) in DAYS_AND_EDITIONS {
        for seed in 0..1_500 {
            for book in [small_book_on(day, edition, seed), tiny_book_on(day, edition, seed)] {
                let found = (refusal(&book), u32::from(book[6]), u32::from(book[7]));
                assert_eq!(found, (0, day, edition), "seed {seed}");
            }
        }
    }
}

/// Every answer is met often among the books for a reader, and at the edges.
#[test]
fn every_refusal_is_met() {
    for (day, edition) in DAYS_AND_EDITIONS {
        let met: Met =
            (0..5_000).map(|seed| refusal(&reader_book_on(day, edition, seed))).collect();
        met.has_each([vec![0], own_causes(day, edition)].concat(), 100);
    }
    let met: Met = day_edges().iter().map(|book| refusal(book)).collect();
    met.has_each([0, 2, 4, 9], 100);
    met.has_each([1, 3, 5, 6], 10);
    for orders in [day_of_23_hours(), day_of_25_hours()] {
        let book = orders.book();
        let met: Met = every_byte_changed(&book).map(|book| refusal(&book)).collect();
        met.has_each(0..=5, 1);
        met.has_each([9], u64::from(orders.day == 23));
    }
}

/// How many of the books of a day have what they are made for.
#[derive(Debug, Default)]
struct Variety {
    over_hour_3: u32,
    over_hour_3_taken: u32,
    limit_met_exactly: u32,
    limit_missed_by_a_cent: u32,
    other_set_on_24: u32,
}

impl Variety {
    fn look_at(&mut self, bytes: &[u8]) {
        let on = |bytes: &[u8]| {
            let result = clear(bytes, result_length(bytes.len() / 16)).expect("cleared");
            let (book, published) =
                (read(bytes).expect("accepted"), Published::from_bytes(&result));
            let set = published.set(&book);
            (book, published, set)
        };
        let (book, published, set) = on(bytes);
        let prices: [u32; 24] = published.prices.try_into().unwrap();
        let some = |wanted: &dyn Fn(usize, &Block) -> bool| {
            u32::from(book.blocks.iter().enumerate().any(|(p, block)| wanted(p, block)))
        };
        let taken = |position: usize| (set >> position) & 1 == 1;
        self.over_hour_3 += some(&|_, block| block.has_hour(3));
        self.over_hour_3_taken += some(&|p, block| taken(p) && block.has_hour(3));
        let short = |block: &Block| short_of_limit(&book, block, &prices);
        self.limit_met_exactly += some(&|p, block| taken(p) && short(block) == 0);
        self.limit_missed_by_a_cent += some(&|_, block| short(block) == 1);
        let mut on_24 = bytes.to_vec();
        on_24[6] = 24;
        self.other_set_on_24 += u32::from(on(&on_24).2 != set);
    }
}

/// By how many cents the sum of a block's prices misses its limit, below zero where it is
/// better than it.
fn short_of_limit(book: &Book, block: &Block, prices: &[u32; 24]) -> i64 {
    let hours = book.hours_of(block);
    let sum: i64 = hours.iter().map(|&hour| i64::from(prices[hour as usize - 1])).sum();
    let over = sum - i64::from(block.price) * hours.len() as i64;
    let short = if block.side == Sell { -over } else { over };
    assert_eq!(keeps_limit(book, block, prices), short <= 0);
    short
}

/// The books of other days are worth comparing on: blocks over hour 3 in most of them,
/// limits on a tick, and another set than that of a day of 24 hours.
#[test]
fn books_of_days_are_varied() {
    for (day, edition) in DAYS_AND_EDITIONS {
        let mut met = Variety::default();
        (0..600).for_each(|seed| met.look_at(&small_book_on(day, edition, seed)));
        println!("{day} hours, edition {edition}, of 600: {met:?}");
        assert!(met.over_hour_3 >= 400);
        assert!(met.over_hour_3_taken >= 100);
        assert!(met.limit_met_exactly >= 50);
        assert!(met.limit_missed_by_a_cent >= 10);
        // Prices that give way keep more of the sets on either day.
        let least = if edition < 4 { 30 } else { 20 };
        assert!(day == 24 || met.other_set_on_24 >= least);
    }
}
