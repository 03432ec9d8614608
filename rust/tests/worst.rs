//! The worst families with few blocks: both twins against the listing of all sets, and with more
//! blocks against each other: the same bytes, and the same nodes. Here most books come to the heavy
//! passes, and many have branches with rivals.

mod large_stack;

use auction_listing::books::WORST_FAMILIES;
use auction_listing::paper::{self, result_length_for};
use auction_listing::twin::by_value::clearing;
use auction_listing::twin::count::taken;
use auction_listing::twin::in_place::{self, Workspace};
use large_stack::with_stack;

/// The listing is quick with so many blocks.
const LISTED_BLOCKS: usize = 10;

/// The result of a book, which is the same by both twins, as the nodes are.
fn cleared(name: &str, book: &[u8], space: &mut Workspace) -> Vec<u8> {
    let (mut one, mut other) =
        (vec![0x55; result_length_for(book)], vec![0xaa; result_length_for(book)]);
    taken();
    assert_eq!(in_place::clear(book, &mut one, space), 0, "{name}");
    let nodes = taken();
    assert!(clearing::clear(book, &mut other).is_ok(), "{name}");
    assert_eq!(nodes, taken(), "{name}: nodes in place and by value");
    assert!(one == other, "{name}: other results in place and by value");
    one
}

#[test]
fn the_twins_clear_the_worst_families() {
    with_stack(|| {
        let mut space = Workspace::default();
        let (mut heavily, mut rivalled) = (0, 0);
        for family in WORST_FAMILIES {
            for seed in 1..=8 {
                let name = format!("{}, seed {seed}", family.name);
                let book = (family.book)(seed, LISTED_BLOCKS);
                let listed = paper::clear(&book, result_length_for(&book)).expect("accepted");
                assert!(cleared(&name, &book, &mut space) == listed, "{name}: another result");
                cleared(&name, &(family.book)(seed, family.quick_blocks), &mut space);
                heavily += u32::from(space.settled().heavily);
                rivalled += u32::from(space.settled().rivalled > 0);
            }
        }
        println!("heavily {heavily}, rivalled {rivalled}");
        assert!(heavily > 40 && rivalled > 20, "{heavily}, {rivalled}");
    });
}
