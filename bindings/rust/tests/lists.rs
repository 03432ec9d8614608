//! The sample lists, lists of every length, and what no list is.

use auction::{header, PriceRange, Refusal};
use std::path::Path;

fn sample(name: &str) -> Vec<u8> {
    let folder = Path::new(env!("CARGO_MANIFEST_DIR")).join("../../samples");
    std::fs::read(folder.join(name)).expect(name)
}

/// Side, price, low and high of each step.
fn list(steps: &[[u32; 4]]) -> Vec<u8> {
    steps.iter().flatten().flat_map(|number| number.to_be_bytes()).collect()
}

fn range(least: u32, greatest: u32) -> Result<PriceRange, Refusal> {
    Ok(PriceRange { least, greatest })
}

#[test]
fn samples() {
    for (name, expected) in [("wind", range(750, 2_500)), ("refused-17", Err(Refusal::List))] {
        assert_eq!(auction::price_range(&sample(&format!("{name}.list"))), expected, "{name}");
        let told = match expected {
            Ok(range) => format!("least;{}\ngreatest;{}\n", range.least, range.greatest),
            Err(refusal) => format!("refused;{}\n", refusal.number()),
        };
        assert_eq!(sample(&format!("{name}.range")), told.as_bytes(), "{name}");
    }
}

#[test]
fn ranges() {
    assert_eq!(auction::price_range(&[]), range(150_000, 150_000));
    let [buy, wind] = [[0, 5_000, 100, 100], [1, 3_000, 60, 140]];
    assert_eq!(auction::price_range(&list(&[buy, wind])), range(3_000, 5_000));
    assert_eq!(auction::price_range(&list(&[buy])), range(152_500, 152_500));
    assert_eq!(auction::price_range(&list(&[[1, 1, 0, 99_999]])), range(1, 150_000));
}

#[test]
fn refusals() {
    let step = [1, 3_000, 60, 140];
    for (at, wrong) in [(0, 2), (0, 1 << 24), (1, 0), (1, 300_001), (2, 141), (3, 100_000)] {
        let mut other = step;
        other[at] = wrong;
        assert_eq!(auction::price_range(&list(&[step, other])), Err(Refusal::List), "{other:?}");
    }
    let most = header::MOST_ENTRIES as usize;
    assert_eq!(header::MOST_LIST, header::MOST_ENTRIES * header::ENTRY_SIZE);
    let full = list(&vec![step; most + 1]);
    for length in 0..=full.len() {
        let right = length % 16 == 0 && length <= header::MOST_LIST as usize;
        let expected = if right { Ok(()) } else { Err(Refusal::List) };
        let found = auction::price_range(&full[..length]).map(|_| ());
        assert_eq!(found, expected, "{length} bytes");
    }
    assert!(Refusal::List.to_string().starts_with("refused with 17: a list longer than 4096"));
}

/// The call by itself: no part but three.
#[test]
fn parts() {
    for (name, expected) in [("wind.list", [0, 750, 2_500]), ("refused-17.list", [17, 0, 0])] {
        let list = sample(name);
        let part = |part| {
            // SAFETY: pointer and length are those of one live slice, which the call only reads.
            unsafe { auction::raw::auction_range(list.as_ptr(), list.len(), part) }
        };
        let known = [header::RANGE_ANSWER, header::RANGE_LEAST, header::RANGE_GREATEST];
        assert_eq!(known.map(part), expected, "{name}");
        for other in [3, 4, 17, 256, 258, 1 << 16, 1 << 24 | 1, u32::MAX] {
            assert_eq!(part(other), 0, "{name}, part {other}");
        }
    }
}
