//! Document 02, P14: the proved price range against this package, number for number: on random
//! lists, damaged ones, those at the edges; and against the proved prices of books whose
//! quantities lie between. Compiled with the feature `proved` only.
//!
//! The environment variable BOOKS raises the counts (at least 20000 tiny and damaged lists each,
//! 4000 others, and 2000 whose quantities are priced as books).

mod sample_files;

use auction_listing::books::{
    count, damaged_list, every_byte_changed, list_edges, list_of, random_list, tiny_list, Dice,
    ListStep, Met, Orders,
};
use auction_listing::paper::{
    self, price_range_by_choices, range_part, read_list, PriceRange, UncertainStep,
};
use sample_files::{list_names, sample};

const LEAST_LISTS: u64 = 20_000;
const LEAST_LONG_LISTS: u64 = 4_000;
const LEAST_PRICED_LISTS: u64 = 2_000;

/// Parts that there are, and some that there are not.
const PARTS: [u32; 5] = [0, 1, 2, 3, u32::MAX];

/// The exported call by itself.
fn proved_part(list: &[u8], part: u32) -> u32 {
    // SAFETY: pointer and length are those of one live slice, which the call only reads.
    unsafe { auction::raw::auction_range(list.as_ptr(), list.len(), part) }
}

/// The binding's answer in the words of this package.
fn proved_range(list: &[u8]) -> Result<PriceRange, u8> {
    let answer = auction::price_range(list);
    answer
        .map(|range| PriceRange { least: range.least, greatest: range.greatest })
        .map_err(|refusal| refusal.number() as u8)
}

/// Asks for each list; what was answered.
fn compare(lists: impl Iterator<Item = (String, Vec<u8>)>) -> Met {
    let mut met = Met::default();
    for (name, list) in lists {
        let before = list.clone();
        let expected = paper::price_range(&list);
        for part in PARTS {
            let proved = proved_part(&list, part);
            assert_eq!(proved, range_part(expected, part), "{name}, part {part}: proved left");
        }
        assert_eq!(proved_range(&list), expected, "{name}: proved left");
        assert!(list == before, "{name}: the list was written to");
        met.add(expected.err().unwrap_or(0));
    }
    met
}

/// What a generator makes of each seed, with its name.
fn made(
    least: u64,
    name: &'static str,
    of: fn(u64) -> Vec<u8>,
) -> impl Iterator<Item = (String, Vec<u8>)> {
    (0..count("BOOKS", least)).map(move |seed| (format!("{name}({seed})"), of(seed)))
}

#[test]
fn random_lists_agree() {
    compare(made(LEAST_LONG_LISTS, "random_list", random_list)).has_each([0], LEAST_LONG_LISTS);
}

/// The definition itself: every choice of quantities is tried.
#[test]
fn every_choice_of_tiny_lists() {
    for (name, list) in made(LEAST_LISTS, "tiny_list", tiny_list) {
        assert_eq!(proved_range(&list), price_range_by_choices(&list), "{name}: proved left");
    }
}

#[test]
fn damaged_lists_agree() {
    compare(made(LEAST_LISTS, "damaged_list", damaged_list)).has_each([0, 17], 4_000);
}

/// Every field at its boundaries, two causes at once, every length to 80 and around 4096.
#[test]
fn lists_at_the_edges_agree() {
    let edges = list_edges().into_iter();
    compare(edges.map(|edge| (edge.name, edge.list))).has_each([0, 17], 200);
}

/// Every list that differs from a right one in a single byte.
#[test]
fn single_bytes_agree() {
    let list = list_of(&[ListStep::sell(3_000, 20, 50), ListStep::buy(70_000, 0, 99_999)]);
    let changed = every_byte_changed(&list).enumerate();
    let named = changed.map(|(index, list)| (format!("change {index} of a byte"), list));
    compare(named).has_each([0, 17], 100);
}

#[test]
fn sample_lists_agree() {
    let samples = list_names().into_iter().map(|name| (name.clone(), sample(&name, "list")));
    compare(samples).has_each([0, 17], 1);
}

/// Only three parts have something to say.
#[test]
fn other_parts_are_0() {
    let bits = (0..32).map(|bit| 1u32 << bit).filter(|&part| part > 2);
    let parts: Vec<u32> = (3..=300).chain(bits).chain([1 << 8 | 1, 1 << 16 | 2]).collect();
    for name in list_names() {
        let list = sample(&name, "list");
        assert!(parts.iter().all(|&part| proved_part(&list, part) == 0), "{name}");
    }
}

/// The price of an hour with these quantities, by the proved pricing. A book has no step of
/// nothing.
fn proved_price(steps: &[UncertainStep], quantities: &[u32]) -> u32 {
    let mut orders = Orders::new();
    for (step, &quantity) in steps.iter().zip(quantities).filter(|(_, &quantity)| quantity > 0) {
        orders = orders.step(step.side, 1, step.price, quantity, 1);
    }
    match auction::price(&orders.book(), 0, 1) {
        Ok(auction::Price::Clears { price, .. }) => price,
        other => panic!("{other:?}"),
    }
}

/// Both proved calls together: no choice is priced outside the range, and each end is the price
/// of some choice.
#[test]
fn the_range_is_that_of_the_prices_of_books() {
    let mut inside = 0;
    for seed in 0..count("BOOKS", LEAST_PRICED_LISTS) {
        let list = random_list(seed);
        let steps = read_list(&list).expect("right");
        let range = proved_range(&list).expect("right");
        let mut dice = Dice::new(seed);
        for choice in 0..2 {
            let quantities = steps.iter().map(|step| match choice {
                0 => dice.pick(&[step.low, step.high]),
                _ => dice.between(step.low, step.high),
            });
            let price = proved_price(&steps, &quantities.collect::<Vec<u32>>());
            assert!(range.least <= price && price <= range.greatest, "random_list({seed})");
            inside += u64::from(range.least < price && price < range.greatest);
        }
        // The sides whose steps are high: sells for the least price, buys for the greatest.
        for (high, price) in [(paper::Side::Sell, range.least), (paper::Side::Buy, range.greatest)]
        {
            let end = |step: &UncertainStep| if step.side == high { step.high } else { step.low };
            let quantities: Vec<u32> = steps.iter().map(end).collect();
            assert_eq!(proved_price(&steps, &quantities), price, "random_list({seed})");
        }
    }
    println!("{inside} prices between the ends");
    assert!(inside > 500);
}
