//! What steps at the price get: the samples S10 and fair-shares.

use std::path::Path;

fn sample(name: &str) -> Vec<u8> {
    let folder = Path::new(env!("CARGO_MANIFEST_DIR")).join("../../samples");
    std::fs::read(folder.join(name)).expect(name)
}

#[test]
fn steps_at_the_price() {
    let outcome = auction::clear(&sample("S10.book")).expect("accepted");
    assert_eq!([1, 2, 3].map(|number| outcome.step(number)), [50, 50, 100].map(Some));
    let outcome = auction::clear(&sample("fair-shares.book")).expect("accepted");
    let executed: Vec<u32> = outcome.rows.iter().map(|row| row.executed).collect();
    assert_eq!(executed, [1, 1, 1, 4, 2, 4, 1, 3, 2, 6, 1, 1, 1, 2]);
}
