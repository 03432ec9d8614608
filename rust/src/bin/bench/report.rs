//! The tables.

use crate::clearers::Kind::{self, ByValue, InPlace, Proved};
use crate::measure::{measure, Measured};
use crate::subject::Subject;
use crate::Options;

pub fn print_head(options: &Options) {
    println!("Processor time from a book's bytes to its result, the shortest of interleaved runs. A node is a call of `explore`, 'cut' is");
    println!("how many of them failed its test, 'of exp.' the nodes over those of expected.txt. Ratios: the proved clearing's time over the");
    println!("twin's. Time per node: what the same book with its blocks priced out takes is taken off first. 'right': all results are the same,");
    println!("and set, welfare and prices are those of expected.txt ('part': of the programs that were not given up).");
    if options.same_source {
        println!(
            "The by-value twin is the proved source without its contracts: the nodes are the same."
        );
    } else {
        println!("The by-value twin is NOT that of the proved source (see `twin_source compare`), so the proved code's nodes");
        println!("may be others, and its times per node are left out.");
    }
}

/// A time in microseconds, or that there is none within the limit.
pub fn micros(seconds: Option<f64>, options: &Options) -> String {
    match seconds {
        Some(seconds) => format!("{:.0}", seconds * 1e6),
        None => format!("> {} s", options.limit),
    }
}

/// The first over the second, where both are known.
pub fn ratio(one: Option<f64>, other: Option<f64>) -> String {
    match (one, other) {
        (Some(one), Some(other)) => format!("{:.2}", one / other),
        _ => "-".into(),
    }
}

/// Nanoseconds.
fn nanos(value: Option<f64>) -> String {
    value.map_or("-".into(), |value| format!("{value:.0}"))
}

/// A row of cells, the first to the left.
pub fn row(cells: &[String], widths: &[usize]) {
    let mut line = format!("{:<width$}", cells[0], width = widths[0]);
    for (cell, width) in cells[1..].iter().zip(&widths[1..]) {
        line += &format!(" {cell:>width$}");
    }
    println!("{line}");
}

/// The widths of the cells, of which the first is wide.
pub const WIDTHS: [usize; 15] = [22, 6, 6, 8, 8, 7, 8, 8, 8, 7, 7, 7, 7, 7, 6];

pub fn titles(first: &str) {
    let words = [
        first, "steps", "blocks", "nodes", "cut", "of exp.", "proved", "by value", "in place",
        "/value", "/place", "proved", "value", "place", "right",
    ];
    let mut groups = vec![String::new(); 15];
    groups[7] = "µs".into();
    groups[9] = "ratio".into();
    groups[12] = "ns/node".into();
    println!();
    row(&groups, &WIDTHS);
    row(&words.map(String::from), &WIDTHS);
}

/// The table of books; whether all is right.
pub fn books(subjects: &[Subject], options: &Options) -> bool {
    titles("book");
    let mut right = true;
    for subject in subjects {
        let measured = measure(subject, options.limit);
        row(&cells(subject, &measured, options), &WIDTHS);
        right &= measured.agree;
    }
    right
}

/// Nanoseconds a node; of the proved code only where its nodes are known.
pub fn per_node(measured: &Measured, kind: Kind, options: &Options) -> Option<f64> {
    if kind == Proved && !options.same_source {
        return None;
    }
    measured.per_node(kind)
}

fn cells(subject: &Subject, measured: &Measured, options: &Options) -> Vec<String> {
    let seconds = |kind: Kind| measured.seconds[kind as usize];
    let node = |kind: Kind| nanos(per_node(measured, kind, options));
    let nodes = Some(measured.nodes.all as f64).filter(|&nodes| nodes > 0.0);
    let of_expected = subject.expected.as_ref().map(|expected| expected.nodes as f64);
    vec![
        subject.name.clone(),
        subject.steps.to_string(),
        subject.blocks.to_string(),
        measured.nodes.all.to_string(),
        measured.nodes.cut.to_string(),
        ratio(nodes, of_expected),
        micros(seconds(Proved), options),
        micros(seconds(ByValue), options),
        micros(seconds(InPlace), options),
        ratio(seconds(Proved), seconds(ByValue)),
        ratio(seconds(Proved), seconds(InPlace)),
        node(Proved),
        node(ByValue),
        node(InPlace),
        measured.right().into(),
    ]
}
