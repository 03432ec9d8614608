//! The worst families that are known, by number of blocks. A clearing runs once, in a process
//! of its own, and is cut where it takes too long.

use crate::clearers::{Clearer, Kind, KINDS};
use crate::clock::keep;
use crate::growth::{median, SEEDS};
use crate::measure::{said_within, ByKind};
use crate::report::{ratio, row};
use crate::subject::result_length;
use crate::Options;
use auction_listing::books::WORST_FAMILIES;
use auction_listing::twin::count;

/// The blocks of the books.
const BLOCKS: [usize; 3] = [24, 28, 32];

/// Seconds after which a clearing is cut, where nothing else is said.
pub const LIMIT: f64 = 10.0;

const WIDTHS: [usize; 9] = [22, 6, 11, 11, 10, 10, 10, 7, 6];

/// What a clearing says of itself: what it took, and the result's bytes as digits.
struct Trial {
    seconds: f64,
    nodes: u64,
    result: String,
}

/// The clearings of a book by kind, where they were not cut.
type Trials = [Option<Trial>; 3];

/// A row of the table: the books of a family with so many blocks.
struct Group {
    name: &'static str,
    blocks: usize,
    books: Vec<Trials>,
}

/// The table, and what was cut; whether all is right.
pub fn table(options: &Options) -> bool {
    println!("Processor time of one clearing in milliseconds, and the in-place twin's nodes. A clearing that takes more than {} s is cut, and", options.limit);
    println!("counts as more than any other; 'most' is of those that were not cut. 'right': all results are the same, and the twins' nodes");
    println!("('part': of the programs that were not cut).\n");
    let words = ["worst family (medians)", "blocks", "nodes", "most"].into_iter();
    let words = words.chain(["proved", "by value", "in place", "/place", "right"]);
    row(&words.map(String::from).collect::<Vec<_>>(), &WIDTHS);
    let (mut right, mut cut) = (true, Vec::new());
    for family in WORST_FAMILIES {
        for blocks in BLOCKS {
            let books = SEEDS.map(|seed| trials(&(family.book)(seed, blocks), options.limit));
            let group = Group { name: family.name, blocks, books: books.collect() };
            row(&group.cells(options), &WIDTHS);
            right &= group.books.iter().all(agree);
            cut.extend(group.cut());
        }
    }
    println!("\nCut after {} s: {}", options.limit, if cut.is_empty() { "none" } else { "" });
    cut.iter().for_each(|line| println!("  {line}"));
    right
}

impl Group {
    /// A value of each book, where the program was not cut.
    fn values(&self, kind: Kind, value: fn(&Trial) -> f64) -> Vec<Option<f64>> {
        self.books.iter().map(|trials| trials[kind as usize].as_ref().map(value)).collect()
    }

    fn cells(&self, options: &Options) -> Vec<String> {
        let whole = |value: Option<f64>| value.map_or("-".into(), |value| format!("{value:.0}"));
        let nodes = self.values(Kind::InPlace, |trial| trial.nodes as f64);
        let most = nodes.iter().copied().flatten().reduce(f64::max);
        let seconds: ByKind = KINDS.map(|kind| median(self.values(kind, |trial| trial.seconds)));
        let millis = |kind: Kind| match seconds[kind as usize] {
            Some(seconds) => format!("{:.1}", seconds * 1e3),
            None => format!("> {:.0}", options.limit * 1e3),
        };
        vec![
            self.name.to_string(),
            self.blocks.to_string(),
            whole(median(nodes)),
            whole(most),
            millis(Kind::Proved),
            millis(Kind::ByValue),
            millis(Kind::InPlace),
            ratio(seconds[Kind::Proved as usize], seconds[Kind::InPlace as usize]),
            self.right().into(),
        ]
    }

    /// In a word whether all is right.
    fn right(&self) -> &'static str {
        let ended = self.books.iter().flatten().flatten().count();
        match (self.books.iter().all(agree), ended) {
            (false, _) => "NO",
            (true, 0) => "-",
            (true, _) if ended == KINDS.len() * self.books.len() => "yes",
            (true, _) => "part",
        }
    }

    /// The programs that were cut, with the seeds.
    fn cut(&self) -> Option<String> {
        let seeds_of = |kind: Kind| -> Vec<String> {
            let ended = self.books.iter().map(|trials| trials[kind as usize].is_some());
            SEEDS.zip(ended).filter(|(_, ended)| !ended).map(|(seed, _)| seed.to_string()).collect()
        };
        let of_kind = |kind: Kind| {
            let seeds = seeds_of(kind);
            (!seeds.is_empty()).then(|| format!("{} {}", kind.name(), seeds.join(" ")))
        };
        let kinds: Vec<String> = KINDS.into_iter().filter_map(of_kind).collect();
        let named =
            || format!("{}, {} blocks, seeds: {}", self.name, self.blocks, kinds.join(", "));
        (!kinds.is_empty()).then(named)
    }
}

/// Whether all results of a book are the same, and the twins' nodes.
fn agree(trials: &Trials) -> bool {
    let same = |one: &Trial, other: &Trial| one.result == other.result;
    let ended: Vec<&Trial> = trials.iter().flatten().collect();
    let twins = [Kind::ByValue, Kind::InPlace].map(|kind| trials[kind as usize].as_ref());
    let nodes: Vec<u64> = twins.into_iter().flatten().map(|trial| trial.nodes).collect();
    ended.windows(2).all(|pair| same(pair[0], pair[1]))
        && nodes.windows(2).all(|pair| pair[0] == pair[1])
}

/// A book through the three programs.
fn trials(book: &[u8], limit: f64) -> Trials {
    KINDS.map(|kind| said_within("--trial", kind, book, limit).map(|said| heard(&said)))
}

/// Clears a book and says what that took.
pub fn trial(kind: &str, book: &[u8]) {
    let mut clearer = Clearer::new(Kind::named(kind));
    let mut result = vec![0; result_length(book)];
    let mut seconds = None;
    count::taken();
    keep(&mut seconds, || clearer.clear(book, &mut result));
    let digits: String = result.iter().map(|byte| format!("{byte:02x}")).collect();
    println!("{} {} {digits}", seconds.expect("one run"), count::taken().all);
}

fn heard(said: &str) -> Trial {
    let words: Vec<&str> = said.split_whitespace().collect();
    let [seconds, nodes, result] = words[..] else { panic!("`{said}`: expected three words") };
    Trial {
        seconds: seconds.parse().expect("seconds"),
        nodes: nodes.parse().expect("nodes"),
        result: result.to_string(),
    }
}
