//! How many nodes the in-place twin needs for the families of the benchmark and for the worst
//! ones. The bars are a little above what these books have: a search that drops fewer branches,
//! for it lost its order, its guess or its rivals, has more.

use auction_listing::books::{Family, FAMILIES, WORST_FAMILIES};
use auction_listing::paper::result_length_for;
use auction_listing::twin::count::taken;
use auction_listing::twin::in_place::{self, Workspace};
use std::sync::{Mutex, MutexGuard, PoisonError};

/// The counters are shared by all threads.
fn alone() -> MutexGuard<'static, ()> {
    static COUNTED: Mutex<()> = Mutex::new(());
    COUNTED.lock().unwrap_or_else(PoisonError::into_inner)
}

/// The nodes of the books of a family together.
fn nodes_of(families: &[Family], name: &str, seeds: u64, blocks: usize) -> u64 {
    let family = families.iter().find(|it| it.name == name).expect("a family");
    let mut space = Workspace::default();
    taken();
    for seed in 1..=seeds {
        let book = (family.book)(seed, blocks.min(family.usual_blocks));
        let mut result = vec![0x55; result_length_for(&book)];
        assert_eq!(in_place::clear(&book, &mut result, &mut space), 0, "{name}, seed {seed}");
    }
    taken().all
}

/// No family has more nodes than its bar.
fn compare(families: &[Family], bars: &[(&str, u64)], seeds: u64, blocks: usize) {
    let _alone = alone();
    let nodes = |&(name, bar): &(_, u64)| (nodes_of(families, name, seeds, blocks), bar, name);
    let met: Vec<(u64, u64, &str)> = bars.iter().map(nodes).collect();
    println!("{met:?}");
    assert!(met.iter().all(|(nodes, bar, _)| nodes <= bar), "{met:?}");
}

#[test]
fn families_keep_their_bars() {
    let bars = [
        ("full days", 4_500),
        ("full days, odd hours", 5_800),
        ("thin days", 6_600),
        ("blocks only", 14_000),
        ("ties", 128_000),
        ("cliffs", 60_000),
        ("edition 2, large", 33_000),
        ("linked by 2", 6_700),
        ("linked by 4", 6_900),
        ("linked by 8", 4_900),
        ("edition 4, blocks alone", 103_000),
    ];
    compare(&FAMILIES, &bars, 50, 32);
}

#[test]
fn the_worst_families_keep_their_bars() {
    let bars = [
        ("one class, traps", 33_000),
        ("two classes, traps", 300_000),
        ("twelve classes, traps", 420_000),
        ("odd hours, traps", 670_000),
        ("one class, cliffs", 34_000),
        ("two classes, cliffs", 190_000),
        ("twelve classes, cliffs", 220_000),
        ("odd hours, cliffs", 1_750_000),
        ("two classes, edition 2", 3_400_000),
        ("few levels", 84_000),
        ("tied sums", 340_000),
    ];
    compare(&WORST_FAMILIES, &bars, 3, 24);
}

/// The nodes of one book of a family.
fn nodes_with(name: &str, seed: u64, space: &mut Workspace) -> u64 {
    let family = FAMILIES.iter().find(|it| it.name == name).expect("a family");
    let book = (family.book)(seed, family.usual_blocks);
    let mut result = vec![0x55; result_length_for(&book)];
    taken();
    assert_eq!(in_place::clear(&book, &mut result, space), 0, "{name}, seed {seed}");
    taken().all
}

#[test]
fn most_linked_days_need_no_more_nodes_than_the_same_blocks_unlinked() {
    let _alone = alone();
    let mut space = Workspace::default();
    for name in ["linked by 2", "linked by 4", "linked by 8"] {
        let no_more = |seed: &u64| {
            let linked = nodes_with(name, *seed, &mut space);
            linked <= nodes_with("the same, not linked", *seed, &mut space)
        };
        let met = (1..=50).filter(no_more).count();
        println!("{name}: {met} of 50");
        assert!(met > 25, "{name}: {met} of 50");
    }
}
