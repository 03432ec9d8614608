//! Days of edition 4, whose prices can give way, through the binding.

use auction::Price;
use std::path::Path;

fn sample(name: &str) -> Vec<u8> {
    let folder = Path::new(env!("CARGO_MANIFEST_DIR")).join("../../samples");
    std::fs::read(folder.join(name)).expect(name)
}

#[test]
fn prices_at_the_shift_of_the_set() {
    let alone = auction::clear(&sample("shift-alone.book")).expect("accepted");
    assert_eq!((alone.welfare, alone.set()), (200_000, 0b11));
    assert!((1..=24).all(|hour| alone.price(hour) == 4_800));
    let above = auction::clear(&sample("shift-above.book")).expect("accepted");
    assert_eq!([1, 2, 3].map(|hour| above.price(hour)), [188_700, 5_258, 5_774]);
    let linked = auction::clear(&sample("shift-linked.book")).expect("accepted");
    assert_eq!((linked.welfare, linked.set(), linked.price(1)), (60_000, 0b1100, 4_400));
}

/// A single hour is answered with the middle price.
#[test]
fn a_single_hour() {
    let middle = Price::Clears { low: 1, high: 300_000, price: 150_000 };
    assert_eq!(auction::price(&sample("shift-alone.book"), 0b11, 1), Ok(middle));
}
