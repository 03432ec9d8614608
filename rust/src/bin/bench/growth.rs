//! Generated books: families, and full days by number of blocks and of steps.

use crate::clearers::{Kind, KINDS};
use crate::measure::{measure, ByKind, Measured};
use crate::report::{micros, per_node, ratio, row, titles, WIDTHS};
use crate::subject::Subject;
use crate::Options;
use auction_listing::books::{full_day, FAMILIES};

/// Books of each kind.
pub const SEEDS: std::ops::Range<u64> = 1..6;

pub fn families(options: &Options) -> bool {
    titles("family of 5 (medians)");
    let mut right = true;
    let mut times = Vec::new();
    for family in FAMILIES {
        let book = |seed| (family.book)(seed, family.usual_blocks);
        let (agree, seconds) = group(family.name, book, options);
        right &= agree;
        times.push((family.name, seconds));
    }
    compare(&times, "one price", "distinct prices");
    compare(&times, "edition 4, full days", "edition 3, full days");
    right
}

/// How much longer the books of one family take than those of another.
fn compare(times: &[(&str, ByKind)], one: &str, other: &str) {
    let of = |name: &str| times.iter().find(|(it, _)| *it == name).expect("a family").1;
    let (above, below) = (of(one), of(other));
    let of_kind = |kind: Kind| {
        format!("{} {}", kind.name(), ratio(above[kind as usize], below[kind as usize]))
    };
    println!("{one} over {other}: {}", KINDS.map(of_kind).join(", "));
}

pub fn by_blocks(options: &Options) -> bool {
    titles("full days by blocks");
    let mut right = true;
    for blocks in [8, 16, 24, 32] {
        right &= group(&format!("{blocks} blocks"), |seed| full_day(seed, 2015, blocks), options).0;
    }
    right
}

pub fn by_steps(options: &Options) -> bool {
    titles("full days by steps");
    let mut right = true;
    for steps in [250, 500, 1000, 2015] {
        right &= group(&format!("{steps} steps"), |seed| full_day(seed, steps, 32), options).0;
    }
    right
}

/// A row of medians over the books of the seeds; whether all is right, and the times.
fn group(name: &str, book: impl Fn(u64) -> Vec<u8>, options: &Options) -> (bool, ByKind) {
    let subjects: Vec<Subject> =
        SEEDS.map(|seed| Subject::new(format!("{name}, seed {seed}"), book(seed))).collect();
    let all: Vec<Measured> =
        subjects.iter().map(|subject| measure(subject, options.limit)).collect();
    let of = |value: &dyn Fn(&Measured) -> Option<f64>| median(all.iter().map(value).collect());
    let whole = |value: Option<f64>| value.map_or("-".into(), |value| format!("{value:.0}"));
    let seconds = KINDS.map(|kind| of(&|one| one.seconds[kind as usize]));
    let nodes = KINDS.map(|kind| of(&|one| per_node(one, kind, options)));
    let agree = all.iter().all(|one| one.agree);
    let some_late = all.iter().find(|one| one.right() != "yes");
    let cells = [
        name.to_string(),
        subjects[0].steps.to_string(),
        subjects[0].blocks.to_string(),
        whole(of(&|one| Some(one.nodes.all as f64))),
        whole(of(&|one| Some(one.nodes.cut as f64))),
        "-".into(),
        micros(seconds[0], options),
        micros(seconds[1], options),
        micros(seconds[2], options),
        ratio(seconds[0], seconds[1]),
        ratio(seconds[0], seconds[2]),
        whole(nodes[0]),
        whole(nodes[1]),
        whole(nodes[2]),
        if !agree { "NO" } else { some_late.map_or("yes", Measured::right) }.into(),
    ];
    row(&cells, &WIDTHS);
    (agree, seconds)
}

/// The middle one of the values, where more than half of them are known; one that is
/// not known counts as more than any other.
pub fn median(mut values: Vec<Option<f64>>) -> Option<f64> {
    values.sort_by(|one, other| one.unwrap_or(f64::MAX).total_cmp(&other.unwrap_or(f64::MAX)));
    values[values.len() / 2]
}
