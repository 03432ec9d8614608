//! The samples of days of 25 and 23 hours, and the number of an hour that does not clear.

use auction::{Price, Refusal};
use std::path::Path;

fn sample(name: &str) -> Vec<u8> {
    let folder = Path::new(env!("CARGO_MANIFEST_DIR")).join("../../samples");
    std::fs::read(folder.join(name)).expect(name)
}

#[test]
fn outcomes() {
    let long = auction::clear(&sample("day-25.book")).expect("accepted");
    assert_eq!((long.welfare, long.price(3), long.traded(3)), (615_000, 3_000, 100));
    let short = auction::clear(&sample("day-23.book")).expect("accepted");
    assert_eq!((short.welfare, short.price(3), short.traded(3)), (410_000, 0, 0));
    assert_eq!((long.block(1), short.block(1)), (Some(50), Some(50)));
}

#[test]
fn refusals() {
    for set in [0, 1] {
        assert_eq!(auction::price(&sample("day-23.book"), set, 3), Err(Refusal::Call));
    }
    for name in ["refused-9-step.book", "refused-9-block.book"] {
        let book = sample(name);
        assert_eq!(auction::read(&book), Err(Refusal::Hours), "{name}");
        assert_eq!(auction::clear_into(&book, &mut []), Err(Refusal::Hours), "{name}");
        assert_eq!(auction::price(&book, 0, 99), Err(Refusal::Hours), "{name}");
    }
}

/// It is told by a number that no refusal can be.
#[test]
fn an_hour_that_does_not_clear() {
    assert_eq!(auction::price(&sample("opposite-blocks.book"), 1, 1), Ok(Price::DoesNotClear));
    assert_eq!(auction::header::DOES_NOT_CLEAR, 256);
    assert!(Refusal::ALL.iter().all(|refusal| refusal.number() < 256));
}
