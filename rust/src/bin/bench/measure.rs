//! Times and nodes on one book.

use crate::clearers::{Clearer, Kind, KINDS};
use crate::clock::keep;
use crate::subject::{result_length, Subject};
use auction_listing::paper::Published;
use auction_listing::twin::count::{self, Nodes};
use std::io::{Read, Write};
use std::process::{Command, Stdio};
use std::time::{Duration, Instant};

/// Rounds on a book, and the seconds after which there are no more than the least
/// rounds, or none.
const LEAST_ROUNDS: u32 = 5;
const MOST_ROUNDS: u32 = 300;
const SECONDS_A_BOOK: f64 = 0.5;
const MOST_SECONDS: f64 = 3.0;

/// What was measured on a book. A time is missing where the clearing was given up.
pub struct Measured {
    pub seconds: ByKind,
    /// With the blocks priced out.
    pub outside: ByKind,
    pub nodes: Nodes,
    /// The nodes with the blocks priced out.
    pub nodes_outside: u64,
    /// Whether the results are as expected and the same, and the twins' nodes too; of
    /// the programs that were not given up.
    pub agree: bool,
}

impl Measured {
    /// In a word whether all is right.
    pub fn right(&self) -> &'static str {
        match (self.agree, self.seconds.iter().flatten().count()) {
            (false, _) => "NO",
            (true, 0) => "-",
            (true, 3) => "yes",
            (true, _) => "part",
        }
    }

    /// Nanoseconds for a node, where there are enough nodes to tell.
    pub fn per_node(&self, kind: Kind) -> Option<f64> {
        let nodes = self.nodes.all.checked_sub(self.nodes_outside + 500)? + 500;
        let search = self.seconds[kind as usize]? - self.outside[kind as usize]?;
        Some(search * 1e9 / nodes as f64)
    }
}

/// Runs the three programs by turns and keeps the shortest time of each.
pub fn measure(subject: &Subject, limit: f64) -> Measured {
    let book = &subject.book;
    let runs: Vec<Kind> =
        KINDS.into_iter().filter(|&kind| ends_within(kind, book, limit)).collect();
    let priced_out = subject.priced_out();
    let (agree, nodes) = results_agree(subject, &runs);
    let (seconds, outside) = shortest(&runs, book, &priced_out);
    let nodes_outside = nodes_of(Kind::InPlace, &priced_out).all;
    Measured { seconds, outside, nodes, nodes_outside, agree }
}

/// Whether a clearing ends in time.
fn ends_within(kind: Kind, book: &[u8], limit: f64) -> bool {
    said_within("--once", kind, book, limit).is_some()
}

/// What this program says in a process of its own, called by another word with a book on its
/// standard input; nothing where it does not end in time.
pub fn said_within(word: &str, kind: Kind, book: &[u8], limit: f64) -> Option<String> {
    let program = std::env::current_exe().expect("this program");
    let mut command = Command::new(program);
    command.args([word, kind.name()]).stdin(Stdio::piped()).stdout(Stdio::piped());
    let mut child = command.spawn().expect("a process");
    child.stdin.take().expect("its input").write_all(book).expect("the book");
    let start = Instant::now();
    while start.elapsed().as_secs_f64() < limit {
        if let Some(status) = child.try_wait().expect("its state") {
            assert!(status.success(), "{} failed", kind.name());
            let mut said = String::new();
            let mut output = child.stdout.take().expect("its output");
            output.read_to_string(&mut said).expect("what it says");
            return Some(said);
        }
        std::thread::sleep(Duration::from_micros(200));
    }
    child.kill().and_then(|()| child.wait()).expect("it can be ended");
    None
}

/// Whether all results are the same and as expected, and the nodes of the twins.
fn results_agree(subject: &Subject, runs: &[Kind]) -> (bool, Nodes) {
    let (mut agree, mut nodes) = (true, None);
    let mut first: Option<Vec<u8>> = None;
    for &kind in runs {
        let mut result = vec![0; result_length(&subject.book)];
        count::taken();
        Clearer::new(kind).clear(&subject.book, &mut result);
        let counted = count::taken();
        agree &= subject.is_expected(&result);
        agree &= *first.get_or_insert_with(|| result.clone()) == result;
        if kind != Kind::Proved {
            agree &= *nodes.get_or_insert(counted) == counted;
        }
    }
    (agree, nodes.unwrap_or_default())
}

/// The nodes that a twin counts on a book.
pub fn nodes_of(kind: Kind, book: &[u8]) -> Nodes {
    let mut result = vec![0; result_length(book)];
    count::taken();
    Clearer::new(kind).clear(book, &mut result);
    count::taken()
}

/// Seconds by kind, where it was run.
pub type ByKind = [Option<f64>; 3];

/// The shortest times of a book and of the same book priced out, by turns.
fn shortest(runs: &[Kind], book: &[u8], priced_out: &[u8]) -> (ByKind, ByKind) {
    let mut result = vec![0; result_length(book)];
    let mut clearers: Vec<(Kind, Clearer)> =
        runs.iter().map(|&kind| (kind, Clearer::new(kind))).collect();
    let (mut seconds, mut outside) = ([None; 3], [None; 3]);
    by_turns(|| {
        for (kind, clearer) in &mut clearers {
            keep(&mut seconds[*kind as usize], || clearer.clear(book, &mut result));
            keep(&mut outside[*kind as usize], || clearer.clear(priced_out, &mut result));
        }
    });
    (seconds, outside)
}

/// As many rounds as a book is given.
pub fn by_turns(mut round: impl FnMut()) {
    let start = Instant::now();
    for done in 0..MOST_ROUNDS {
        round();
        let spent = start.elapsed().as_secs_f64();
        if spent > MOST_SECONDS || (spent > SECONDS_A_BOOK && done >= LEAST_ROUNDS) {
            break;
        }
    }
}

/// Seconds of the proved clearing by itself, and the published welfare.
pub fn proved_alone(subject: &Subject) -> (f64, u64) {
    let (seconds, _) = shortest(&[Kind::Proved], &subject.book, &subject.book);
    let mut result = vec![0; result_length(&subject.book)];
    Clearer::new(Kind::Proved).clear(&subject.book, &mut result);
    let welfare = Published::from_bytes(&result).welfare;
    (seconds[Kind::Proved as usize].expect("it was run"), welfare)
}
