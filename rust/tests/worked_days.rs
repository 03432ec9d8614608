//! S1 to S10 and the remaining days of document 01's "Days to check by hand",
//! as figures written down from the paper, those of S10 from document 02.

use auction_listing::books::{
    head_alone, opposite_blocks, thirty_two_blocks, worked_days, Orders, THIRTY_TWO_BLOCKS_TAKEN,
};
use auction_listing::paper::Side::{Buy, Sell};
use auction_listing::paper::{
    clear, outcome, price_hour, price_hour_by_scan, read, result_bytes, result_length, sheet,
    HourAnswer, Published,
};

/// A day's figures: prices and traded quantities of the first hours (all other
/// hours have 150000 and 0), the rows of all records, and the welfare.
struct Figures {
    name: &'static str,
    hours: &'static [(u32, u32)],
    rows: &'static [u32],
    set: u32,
    welfare: u64,
}

const BASE_HOURS: [(u32, u32); 2] = [(4_000, 100), (4_000, 100)];
const BLOCK_HOURS: [(u32, u32); 2] = [(3_000, 100), (3_000, 100)];

const DAYS: [Figures; 10] = [
    Figures { name: "S1", hours: &BASE_HOURS, rows: &[100; 4], set: 0, welfare: 400_000 },
    Figures {
        name: "S2",
        hours: &BASE_HOURS,
        rows: &[100, 100, 100, 100, 0],
        set: 0,
        welfare: 400_000,
    },
    Figures {
        name: "S3",
        hours: &BLOCK_HOURS,
        rows: &[100, 50, 100, 50, 50],
        set: 1,
        welfare: 400_000,
    },
    Figures {
        name: "S4",
        hours: &BASE_HOURS,
        rows: &[100, 100, 100, 100, 0],
        set: 0,
        welfare: 400_000,
    },
    Figures {
        name: "S5",
        hours: &BLOCK_HOURS,
        rows: &[100, 50, 100, 50, 50],
        set: 1,
        welfare: 410_000,
    },
    Figures {
        name: "S6",
        hours: &BLOCK_HOURS,
        rows: &[100, 50, 100, 50, 50, 0],
        set: 1,
        welfare: 410_000,
    },
    Figures { name: "S7", hours: &[(3_500, 10)], rows: &[10, 10], set: 0, welfare: 10_010 },
    Figures { name: "S8", hours: &[(300_000, 60)], rows: &[60, 60], set: 0, welfare: 17_880_000 },
    Figures { name: "S9", hours: &[(1, 0)], rows: &[0], set: 0, welfare: 0 },
    Figures { name: "S10", hours: &[(3_000, 100)], rows: &[50, 50, 100], set: 0, welfare: 200_000 },
];

fn cleared(book: &[u8]) -> Published {
    let length = result_length(read(book).expect("accepted").record_count);
    let result = clear(book, length).expect("cleared");
    assert_eq!(result.len(), length);
    Published::from_bytes(&result)
}

/// The figures of all 24 hours, when only the first ones have orders.
fn whole_day(first_hours: &[(u32, u32)]) -> Vec<(u32, u32)> {
    let mut hours = first_hours.to_vec();
    hours.resize(24, (150_000, 0));
    hours
}

fn hours_of(published: &Published) -> Vec<(u32, u32)> {
    published.prices.iter().copied().zip(published.traded.iter().copied()).collect()
}

fn day(name: &str) -> Orders {
    let found = worked_days().into_iter().find(|(other, _)| *other == name);
    found.expect("a worked day").1
}

#[test]
fn s1_to_s10() {
    let names: Vec<&str> = worked_days().iter().map(|(name, _)| *name).collect();
    assert_eq!(names, DAYS.iter().map(|figures| figures.name).collect::<Vec<_>>());
    for figures in &DAYS {
        let book = day(figures.name).book();
        let published = cleared(&book);
        assert_eq!(hours_of(&published), whole_day(figures.hours), "{}", figures.name);
        assert_eq!(published.rows, figures.rows, "{}", figures.name);
        assert_eq!(published.set(&read(&book).unwrap()), figures.set, "{}", figures.name);
        assert_eq!(published.welfare, figures.welfare, "{}", figures.name);
    }
}

/// The 8 bytes, the 24 pairs and the rows of S5, byte by byte.
#[test]
fn result_bytes_of_s5() {
    let result = clear(&day("S5").book(), 196 + 4 * 6).unwrap();
    let mut expected = vec![0, 0, 0, 0, 0, 6, 65, 144];
    for _ in 0..2 {
        expected.extend([0, 0, 11, 184, 0, 0, 0, 100]);
    }
    for _ in 0..22 {
        expected.extend([0, 2, 73, 240, 0, 0, 0, 0]);
    }
    for row in [100, 50, 100, 50, 50] {
        expected.extend([0, 0, 0, row]);
    }
    assert_eq!(result, expected);
}

/// What the paper says about prices in S1, S2 and S6.
#[test]
fn prices_under_sets() {
    let both = |book: &[u8], set, hour| {
        let answer = price_hour(book, set, hour);
        assert_eq!(answer, price_hour_by_scan(book, set, hour));
        answer
    };
    for hour in [1, 2] {
        let one = |low, high, price| HourAnswer::Cleared { low, high, price };
        assert_eq!(both(&day("S1").book(), 0, hour), one(3_000, 5_000, 4_000));
        assert_eq!(both(&day("S2").book(), 0, hour), one(3_000, 5_000, 4_000));
        assert_eq!(both(&day("S2").book(), 1, hour), one(3_000, 3_000, 3_000));
        assert_eq!(both(&day("S6").book(), 3, hour), one(1, 3_000, 1_500));
    }
    let empty = HourAnswer::Cleared { low: 1, high: 300_000, price: 150_000 };
    assert_eq!(both(&day("S6").book(), 3, 3), empty);
}

#[test]
fn a_book_of_the_head_alone() {
    let book = head_alone().book();
    let published = cleared(&book);
    assert_eq!(hours_of(&published), whole_day(&[]));
    assert_eq!((published.rows.len(), published.welfare), (0, 0));
    let text = String::from_utf8(sheet(&book)).unwrap();
    assert!(text.ends_with("24;150000;0\nblock;taken\nwelfare;0\n"), "{text}");
}

#[test]
fn opposite_blocks_alone() {
    let book = opposite_blocks().book();
    let published = cleared(&book);
    assert_eq!(hours_of(&published), whole_day(&[]));
    assert_eq!((published.rows.clone(), published.welfare), (vec![0, 0], 0));
    // Together they meet the price 150000, either one alone does not clear.
    let meeting = HourAnswer::Cleared { low: 1, high: 300_000, price: 150_000 };
    assert_eq!(price_hour(&book, 3, 1), meeting);
    assert_eq!(price_hour(&book, 1, 1), HourAnswer::NotClearing);
    assert_eq!(price_hour(&book, 2, 1), HourAnswer::NotClearing);
}

#[test]
fn sheet_of_s5() {
    let mut expected = String::from("hour;cents;tenths\n1;3000;100\n2;3000;100\n");
    for hour in 3..=24 {
        expected += &format!("{hour};150000;0\n");
    }
    expected += "block;taken\n1;1\nwelfare;410000\n";
    assert_eq!(String::from_utf8(sheet(&day("S5").book())).unwrap(), expected);
}

#[test]
fn quantities_prices_and_counts_at_their_edges() {
    let refusal = |orders: Orders| read(&orders.book()).err();
    let block = |price, quantity| Orders::new().block(Sell, &[1, 2], price, quantity, 3);
    assert_eq!(refusal(block(3_000, 50)), None);
    assert_eq!(refusal(block(3_000, 51)), Some(4));
    assert_eq!(refusal(block(300_000, 50)), None);
    assert_eq!(refusal(block(300_001, 50)), Some(4));
    assert_eq!(refusal(block(1, 50)), None);
    assert_eq!(refusal(block(0, 50)), Some(4));
    let step = |price| Orders::new().step(Buy, 1, price, 10, 1);
    assert_eq!(refusal(step(300_000)), None);
    assert_eq!(refusal(step(300_001)), Some(4));
    assert_eq!(refusal(step(1)), None);
    assert_eq!(refusal(step(0)), Some(4));
    assert_eq!(refusal(thirty_two_blocks()), None);
    assert_eq!(refusal(thirty_two_blocks().block(Sell, &[1, 2], 3_000, 50, 200)), Some(6));
}

#[test]
fn a_record_that_is_its_own_next() {
    for record in 1..=5 {
        let mut book = day("S5").book();
        book[16 * record + 3] = record as u8;
        assert_eq!(read(&book).err(), Some(3), "record {record}");
    }
}

/// The reasons are with `thirty_two_blocks`. Here: the set it names gives the
/// prices it names, is best among all sets of the ten good blocks, and none of
/// the others can be added to it lawfully.
#[test]
fn thirty_two_blocks_by_reasons() {
    let orders = thirty_two_blocks();
    let book = read(&orders.book()).unwrap();
    let taken: u32 = THIRTY_TWO_BLOCKS_TAKEN.iter().map(|number| 1 << (number - 1)).sum();
    let published = outcome(&book, taken).expect("lawful");
    for hour in 1..=24 {
        let price = if [7, 8, 24].contains(&hour) { 4_000 } else { 3_000 };
        assert_eq!((published.prices[hour - 1], published.traded[hour - 1]), (price, 1_000));
    }
    for position in 0..32 {
        let with = taken | 1 << position;
        assert!(with == taken || outcome(&book, with).is_none(), "block {}", position + 1);
    }
    let mut good = orders.clone();
    good.blocks.retain(|block| THIRTY_TWO_BLOCKS_TAKEN.contains(&block.number));
    let best = cleared(&good.book());
    assert_eq!(best.set(&read(&good.book()).unwrap()), 1023);
    assert_eq!(i128::from(best.welfare), published.welfare);
    let whole = Published::from_bytes(&result_bytes(&book, &published));
    assert_eq!((whole.prices, whole.traded), (best.prices, best.traded));
}

/// Written down by hand: 24 hours of 1000 x 2000, and for each good block
/// 50 x (3000 - price) x its hours.
#[test]
fn thirty_two_blocks_welfare() {
    // (hours, 3000 - price)
    let gains: [(i128, i128); 10] = [
        (12, 1_000),
        (12, 0),
        (6, 500),
        (6, 100),
        (4, 1_000),
        (4, 900),
        (5, 2_999),
        (5, 0),
        (2, 1),
        (2, 1_000),
    ];
    let gain: i128 = gains.iter().map(|(hours, gain)| 50 * hours * gain).sum();
    let welfare = 24 * 1_000 * 2_000 + gain;
    let taken = THIRTY_TWO_BLOCKS_TAKEN.iter().map(|number| 1 << (number - 1)).sum();
    let book = read(&thirty_two_blocks().book()).unwrap();
    assert_eq!(outcome(&book, taken).unwrap().welfare, welfare);
    assert_eq!(welfare, 50_009_850);
}
