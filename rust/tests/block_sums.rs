//! Two sets of a book's blocks with the same N in an hour get the same answer
//! (document 02, P4), through the exported call. Compiled with the feature
//! `proved` only.
//!
//! The environment variable BOOKS raises the count (at least 100).

use auction::Price;
use auction_listing::books::{count, small_book};
use auction_listing::paper;
use std::collections::BTreeMap;

const LEAST_BOOKS: u64 = 100;

/// How many pairs of different sets with equal N were met.
#[derive(Debug, Default)]
struct Pairs {
    cleared: u64,
    not_clearing: u64,
    below_zero: u64,
}

#[test]
fn sets_with_the_same_n_get_the_same_answer() {
    let mut pairs = Pairs::default();
    for seed in 0..count("BOOKS", LEAST_BOOKS) {
        let book = small_book(seed);
        let blocks = paper::read(&book).expect("a small book is accepted").blocks;
        for hour in 1..=24 {
            let mut by_net: BTreeMap<i64, Price> = BTreeMap::new();
            for set in 0..1u32 << blocks.len() {
                let net = paper::net_block_sales(&blocks, set, hour);
                let answer = auction::price(&book, set, hour).expect("an accepted book");
                let Some(&before) = by_net.get(&net) else {
                    by_net.insert(net, answer);
                    continue;
                };
                assert_eq!(answer, before, "small_book({seed}), hour {hour}, set {set:b}, N {net}");
                match answer {
                    Price::Clears { .. } => pairs.cleared += 1,
                    Price::DoesNotClear => pairs.not_clearing += 1,
                }
                pairs.below_zero += u64::from(net < 0);
            }
        }
    }
    println!("{pairs:?}");
    assert!(pairs.cleared > 0 && pairs.not_clearing > 0 && pairs.below_zero > 0, "{pairs:?}");
}
