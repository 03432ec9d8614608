//! Document 02, P14: the least and the greatest price of an hour whose quantities are
//! uncertain, written down from the paper. What is said here is the listing's own;
//! `proved_range` holds the proved call to the listing.
//!
//! The environment variable BOOKS raises the counts of random lists (at least 20000 tiny ones
//! with every choice tried, and 4000 others), SCANS those with all prices tried (at least 300).

mod sample_files;

use auction_listing::books::{
    count, damaged_list, every_byte_changed, list_edges, list_of, random_list, tiny_list, Dice,
    ListStep, Met,
};
use auction_listing::paper::{
    price_of, price_range, price_range_by_choices, range_part, read_list, scan, PriceRange, Side,
    Step, UncertainStep,
};
use sample_files::{list_names, sample};

fn range(least: u32, greatest: u32) -> Result<PriceRange, u8> {
    Ok(PriceRange { least, greatest })
}

/// The range of a list of few choices, by every choice and by its two ends.
fn range_of(steps: &[ListStep]) -> Result<PriceRange, u8> {
    let list = list_of(steps);
    let range = price_range_by_choices(&list);
    assert_eq!(price_range(&list), range, "{steps:?}");
    range
}

/// 0 for a right list.
fn refusal(list: &[u8]) -> u8 {
    let refusal = read_list(list).err().unwrap_or(0);
    assert_eq!(price_range(list).err().unwrap_or(0), refusal);
    refusal
}

/// "a list of up to 256 steps": none is a number of steps too, and the hour has the price of
/// an hour without orders.
#[test]
fn no_steps() {
    assert_eq!(range_of(&[]), range(150_000, 150_000));
}

/// Certain quantities have the price of document 01's days S1 and S7 to S10.
#[test]
fn certain_quantities_have_their_price() {
    let (buy, sell) = (ListStep::buy, ListStep::sell);
    for (steps, price) in [
        (&[buy(5_000, 100, 100), sell(3_000, 100, 100)][..], 4_000),
        (&[buy(4_001, 10, 10), sell(3_000, 10, 10)], 3_500),
        (&[buy(300_000, 100, 100), sell(2_000, 60, 60)], 300_000),
        (&[sell(1, 100, 100)], 1),
        (&[sell(3_000, 60, 60), sell(3_000, 60, 60), buy(5_000, 100, 100)], 3_000),
    ] {
        assert_eq!(range_of(steps), range(price, price), "{steps:?}");
    }
}

/// Days checked by hand.
#[test]
fn uncertain_quantities() {
    let (buy, sell) = (ListStep::buy, ListStep::sell);
    // S1 with wind for its sell: too little, as much as is bought, or too much.
    assert_eq!(range_of(&[buy(5_000, 100, 100), sell(3_000, 60, 140)]), range(3_000, 5_000));
    assert_eq!(range_of(&[buy(5_000, 100, 100), sell(3_000, 100, 140)]), range(3_000, 4_000));
    assert_eq!(range_of(&[buy(5_000, 100, 100), sell(3_000, 60, 100)]), range(4_000, 5_000));
    // The same with an uncertain buy.
    assert_eq!(range_of(&[buy(5_000, 60, 140), sell(3_000, 100, 100)]), range(3_000, 5_000));
    // A sell that may not be there at all: 150000 without it.
    assert_eq!(range_of(&[sell(1, 0, 100)]), range(1, 150_000));
    assert_eq!(range_of(&[buy(300_000, 0, 1)]), range(150_000, 300_000));
    // A step that is certainly nothing moves no price.
    assert_eq!(
        range_of(&[buy(5_000, 7, 7), sell(4_500, 0, 0), sell(3_000, 7, 7)]),
        range(4_000, 4_000)
    );
    // The middle is rounded down at each end.
    assert_eq!(range_of(&[buy(4_001, 10, 11), sell(3_000, 10, 10)]), range(3_500, 4_001));
}

/// Wind and demand that are uncertain together: all low and all high have one price, and both
/// ends lie elsewhere.
fn wind() -> [ListStep; 6] {
    let (buy, sell) = (ListStep::buy, ListStep::sell);
    let plants = [1_000, 2_000, 3_000, 4_000].map(|price| sell(price, 100, 100));
    [buy(9_000, 100, 200), sell(500, 0, 100), plants[0], plants[1], plants[2], plants[3]]
}

#[test]
fn wind_and_demand() {
    assert_eq!(range_of(&wind()), range(750, 2_500));
    let with = |lows: bool| {
        wind().map(|step| {
            let quantity = if lows { step.low } else { step.high };
            ListStep { low: quantity, high: quantity, ..step }
        })
    };
    assert_eq!(range_of(&with(true)), range(1_500, 1_500));
    assert_eq!(range_of(&with(false)), range(1_500, 1_500));
}

/// The sample lists have the answers that stand beside them.
#[test]
fn sample_lists() {
    assert_eq!(list_names(), ["refused-17", "wind"]);
    assert_eq!(sample("wind", "list"), list_of(&wind()));
    // The last step of the other has a low figure above its high one.
    let mut wrong = wind();
    (wrong[5].low, wrong[5].high) = (101, 100);
    assert_eq!(sample("refused-17", "list"), list_of(&wrong));
    for name in list_names() {
        let answer = match price_range(&sample(&name, "list")) {
            Ok(range) => format!("least;{}\ngreatest;{}\n", range.least, range.greatest),
            Err(refusal) => format!("refused;{refusal}\n"),
        };
        assert_eq!(sample(&name, "range"), answer.as_bytes(), "{name}");
    }
}

/// "each with side, price, low and high in 4 bytes apiece".
#[test]
fn fields_are_read() {
    let list = [0, 0, 0, 1, 0, 4, 0x93, 0xe0, 0, 0, 1, 2, 0, 1, 0x86, 0x9f];
    let step = UncertainStep { side: Side::Sell, price: 300_000, low: 258, high: 99_999 };
    assert_eq!(read_list(&list), Ok(vec![step]));
    let other = UncertainStep { side: Side::Buy, price: 1, low: 0, high: 0 };
    let both = [&list[..], &[0, 0, 0, 0, 0, 0, 0, 1], &[0; 8]].concat();
    assert_eq!(read_list(&both), Ok(vec![step, other]));
}

/// "17, a list too long or not a multiple of 16 bytes, or a field out of range."
#[test]
fn edges() {
    let mut met = Met::default();
    for edge in list_edges() {
        let expected = if edge.right { 0 } else { 17 };
        assert_eq!(refusal(&edge.list), expected, "{}", edge.name);
        met.add(expected);
    }
    met.has_each([0, 17], 200);
}

/// A right step with one byte changed: the fields alone say whether it is right still.
#[test]
fn single_bytes() {
    let list = list_of(&[ListStep::sell(3_000, 20, 50), ListStep::buy(70_000, 0, 99_999)]);
    let mut met = Met::default();
    for changed in every_byte_changed(&list) {
        let field = |at: usize| u32::from_be_bytes(changed[at..at + 4].try_into().unwrap());
        let fits = |at: usize| {
            let (low, high) = (field(at + 8), field(at + 12));
            field(at) <= 1
                && (1..=300_000).contains(&field(at + 4))
                && low <= high
                && high <= 99_999
        };
        let expected = if fits(0) && fits(16) { 0 } else { 17 };
        assert_eq!(refusal(&changed), expected, "{changed:?}");
        met.add(expected);
    }
    met.has_each([0, 17], 100);
}

/// "a list of up to 256 steps".
#[test]
fn numbers_of_steps() {
    for steps in [0, 1, 2, 255, 256, 257, 258, 512] {
        let list = list_of(&vec![ListStep::buy(300_000, 0, 99_999); steps]);
        assert_eq!(refusal(&list), if steps <= 256 { 0 } else { 17 }, "{steps} steps");
    }
    let full = list_of(&[ListStep::buy(300_000, 1, 99_999); 256]);
    assert_eq!(price_range(&full), range(300_000, 300_000));
}

/// The answer as numbers: the refusal, the least, the greatest, and no other part.
#[test]
fn parts() {
    for (answer, expected) in [(range(3, 9), [0, 3, 9]), (Err(17), [17, 0, 0])] {
        assert_eq!([0, 1, 2].map(|part| range_part(answer, part)), expected);
        for part in [3, 17, 256, u32::MAX] {
            assert_eq!(range_part(answer, part), 0);
        }
    }
}

/// The prices with all quantities low and with all high, the lesser first.
fn diagonal(list: &[UncertainStep]) -> (u32, u32) {
    let lows: Vec<u32> = list.iter().map(|step| step.low).collect();
    let highs: Vec<u32> = list.iter().map(|step| step.high).collect();
    let (one, other) = (price_of(list, &lows), price_of(list, &highs));
    (one.min(other), one.max(other))
}

/// The two ends are the least and the greatest of all choices.
#[test]
fn every_choice_of_tiny_lists() {
    let (mut wide, mut not_on_the_diagonal) = (0, 0);
    let lists = count("BOOKS", 20_000);
    for seed in 0..lists {
        let list = tiny_list(seed);
        let range = price_range_by_choices(&list).expect("right");
        assert_eq!(price_range(&list), Ok(range), "tiny_list({seed})");
        wide += u64::from(range.least < range.greatest);
        let diagonal = diagonal(&read_list(&list).expect("right"));
        not_on_the_diagonal += u64::from(diagonal != (range.least, range.greatest));
    }
    println!("{wide} of {lists} are ranges, {not_on_the_diagonal} not those of all low and high");
    assert!(wide > lists / 3 && not_on_the_diagonal > lists / 20);
}

/// Choices at random of lists with too many to try them all: none is outside.
#[test]
fn no_choice_is_outside() {
    let (mut inside, mut wide) = (0, 0);
    for seed in 0..count("BOOKS", 4_000) {
        let list = random_list(seed);
        let range = price_range(&list).expect("right");
        let steps = read_list(&list).expect("right");
        let mut dice = Dice::new(seed);
        for choice in 0..3 {
            // Anywhere between, and at one end or the other.
            let quantities = steps.iter().map(|step| match choice {
                0 => dice.pick(&[step.low, step.high]),
                _ => dice.between(step.low, step.high),
            });
            let price = price_of(&steps, &quantities.collect::<Vec<u32>>());
            assert!(range.least <= price && price <= range.greatest, "random_list({seed})");
            inside += u64::from(range.least < price && price < range.greatest);
        }
        wide += u64::from(range.least < range.greatest);
    }
    println!("{wide} ranges, {inside} prices between their ends");
    assert!(wide > 1_000 && inside > 1_000);
}

/// The prices by trying all of them, also with steps of nothing.
#[test]
fn prices_agree_with_the_scan() {
    for seed in 0..count("SCANS", 300) {
        let steps = read_list(&tiny_list(seed)).expect("right");
        let lows: Vec<u32> = steps.iter().map(|step| step.low).collect();
        let certain: Vec<Step> = steps.iter().map(|step| step.with(step.low)).collect();
        let (low, high) = scan(&certain, 0).expect("without blocks an hour clears");
        assert_eq!(price_of(&steps, &lows), (low + high) / 2, "tiny_list({seed})");
    }
}

/// What the generators make is varied.
#[test]
fn lists_are_varied() {
    let lists = 20_000;
    let damaged: Met = (0..lists).map(|seed| refusal(&damaged_list(seed))).collect();
    damaged.has_each([0, 17], 4_000);
    let lengths: Vec<usize> = (0..lists).map(|seed| random_list(seed).len() / 16).collect();
    for (what, met) in [
        ("empty", lengths.iter().filter(|&&steps| steps == 0).count()),
        ("full", lengths.iter().filter(|&&steps| steps == 256).count()),
        ("long", lengths.iter().filter(|&&steps| (61..256).contains(&steps)).count()),
    ] {
        println!("{what}: {met}");
        assert!(met > 100, "{what}: {met}");
    }
}
