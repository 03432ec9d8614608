//! Climbs to a bad book: changes blocks of a full day at random, and keeps what does not lower
//! the nodes of the search. `climb --help` tells how it is called.

use auction_listing::books::{full_day_of, hours_in, Dice};
use auction_listing::paper::{self, Block, Limits, Published, Side};
use auction_listing::text::{refusal_meaning, to_text};
use auction_listing::twin::count;
use auction_listing::twin::in_place::{self, Workspace};
use std::process::ExitCode;
use std::time::{Duration, Instant};

const HELP: &str = "\
climb: how bad a book becomes for the search by changes of its blocks

  climb --member [OPTION VALUE]..   changes the blocks of one portfolio
  climb --all [OPTION VALUE]..      changes any block

  --seconds N   ends after so long (60, where no number of tries is given)
  --tries N     ends after so many tries; the same seed then gives the same book
  --seed N      of the day and of the changes (1)
  --blocks N    of the day, at most 32 (32)
  --edition N   of the day, 1 to 4 (4)
  --from FILE   begins with this book, and not with a full day
  --cap N       ends with the first book that needs more nodes (200000000)
  --out FILE    writes the book there, and not as text to standard output

A try changes up to three blocks: side, hours, price or quantity, within what the
edition allows. It is kept where the in-place twin needs no fewer nodes for it.

Standard output has a line `# try 7: 153 nodes` for each rise, a line with the nodes
and the time of the worst book, and that book in the text form of `book_text`.
";

/// What the command line asks for.
struct Options {
    one_member: bool,
    most_time: Duration,
    most_tries: u64,
    seed: u64,
    blocks: usize,
    edition: u32,
    from: Option<String>,
    cap: u64,
    out: Option<String>,
}

fn main() -> ExitCode {
    let words: Vec<String> = std::env::args().skip(1).collect();
    if words.iter().any(|word| word == "--help") {
        print!("{HELP}");
        return ExitCode::SUCCESS;
    }
    match options(&words).and_then(|options| climb(&options)) {
        Ok(()) => ExitCode::SUCCESS,
        Err(message) => {
            eprintln!("climb: {message}");
            ExitCode::from(2)
        }
    }
}

fn options(words: &[String]) -> Result<Options, String> {
    let one_member = match words.first().map(String::as_str) {
        Some("--member") => true,
        Some("--all") => false,
        _ => return Err("expected `--member`, `--all` or `--help`".into()),
    };
    let mut options = Options {
        one_member,
        most_time: Duration::MAX,
        most_tries: u64::MAX,
        seed: 1,
        blocks: 32,
        edition: 4,
        from: None,
        cap: 200_000_000,
        out: None,
    };
    for pair in words[1..].chunks(2) {
        let [name, value] = pair else { return Err(format!("`{}` has no value", pair[0])) };
        let number = || value.parse().map_err(|_| format!("`{name} {value}`: no number"));
        match name.as_str() {
            "--seconds" => options.most_time = Duration::from_secs(number()?),
            "--tries" => options.most_tries = number()?,
            "--seed" => options.seed = number()?,
            "--blocks" => options.blocks = number()?.min(32) as usize,
            "--edition" => options.edition = number()?.clamp(1, 4) as u32,
            "--from" => options.from = Some(value.clone()),
            "--cap" => options.cap = number()?,
            "--out" => options.out = Some(value.clone()),
            _ => return Err(format!("there is no `{name}`")),
        }
    }
    if options.most_time == Duration::MAX && options.most_tries == u64::MAX {
        options.most_time = Duration::from_secs(60);
    }
    Ok(options)
}

/// Climbs as long as is asked, and tells of it.
fn climb(options: &Options) -> Result<(), String> {
    let book = match &options.from {
        Some(file) => std::fs::read(file).map_err(|error| format!("{file}: {error}"))?,
        None => full_day_of(options.edition, options.seed, options.blocks),
    };
    let mut climber = Climber::new(book, options)?;
    println!("# begins with {} nodes", climber.nodes);
    let start = Instant::now();
    let mut tries = 0;
    while tries < options.most_tries
        && start.elapsed() < options.most_time
        && climber.nodes < options.cap
    {
        tries += 1;
        if climber.rises() {
            println!("# try {tries}: {} nodes", climber.nodes);
        }
    }
    println!("# after {tries} tries: {}", climber.worst());
    match &options.out {
        Some(file) => {
            std::fs::write(file, &climber.book).map_err(|error| format!("{file}: {error}"))
        }
        None => Ok(print!("{}", to_text(&climber.book).expect("it was cleared"))),
    }
}

/// A book on its way.
struct Climber {
    book: Vec<u8>,
    blocks: Vec<Block>,
    /// The places of the blocks that may be changed.
    own: Vec<usize>,
    limits: Limits,
    /// The nodes of the book; the cap stands for more.
    nodes: u64,
    cap: u64,
    /// The result of the last book that was cleared.
    result: Vec<u8>,
    dice: Dice,
    space: Workspace,
}

/// The most blocks that a try changes.
const MOST_CHANGED: u32 = 3;

impl Climber {
    fn new(book: Vec<u8>, options: &Options) -> Result<Climber, String> {
        let accepted = paper::read(&book).map_err(|it| refusal_meaning(it).to_string())?;
        let mut dice = Dice::new(options.seed);
        let member = accepted.blocks.get(dice.below(accepted.blocks.len().max(1)));
        let member = member.ok_or("there are no blocks to be changed")?.portfolio;
        let is_own = |&at: &usize| !options.one_member || accepted.blocks[at].portfolio == member;
        let mut climber = Climber {
            own: (0..accepted.blocks.len()).filter(is_own).collect(),
            blocks: accepted.blocks,
            limits: paper::limits(accepted.edition).expect("it is accepted"),
            nodes: 0,
            cap: options.cap,
            result: vec![0; paper::result_length_for(&book)],
            book,
            dice,
            space: Workspace::default(),
        };
        climber.nodes = climber.counted().expect("it is accepted");
        Ok(climber)
    }

    /// The nodes of the book, unless it is refused.
    fn counted(&mut self) -> Option<u64> {
        let Climber { book, result, space, .. } = self;
        let mut refusal = 0;
        let nodes = count::within(self.cap, || refusal = in_place::clear(book, result, space));
        (refusal == 0).then(|| nodes.map_or(self.cap, |nodes| nodes.all))
    }

    /// Tries a change; whether the nodes rise.
    fn rises(&mut self) -> bool {
        let (blocks, nodes) = (self.blocks.clone(), self.nodes);
        for _ in 0..self.dice.between(1, MOST_CHANGED) {
            let at = self.dice.pick(&self.own);
            self.blocks[at] = self.changed(self.blocks[at]);
        }
        self.write_blocks();
        match self.counted().filter(|&counted| counted >= nodes) {
            Some(counted) => self.nodes = counted,
            None => {
                self.blocks = blocks;
                self.write_blocks();
            }
        }
        self.nodes > nodes
    }

    /// A block changed at random, within the limits of the edition.
    fn changed(&mut self, block: Block) -> Block {
        let model = self.dice.pick(&self.blocks);
        let Block { hours, price, quantity, .. } = block;
        let changed = match self.dice.below(10) {
            0 => Block { price: self.near(price, 3), ..block },
            1 => Block { price: self.near(price, price / 50), ..block },
            2 => Block { price: model.price, ..block },
            3 => Block { price: self.paid_near(hours), ..block },
            4 => Block { quantity: self.near(quantity, 3), ..block },
            5 => Block { quantity: self.dice.between(1, self.limits.block_quantity), ..block },
            6 => Block { hours: hours ^ (1 << self.dice.below(24)), ..block },
            7 => Block { hours: model.hours, price: self.paid_near(model.hours), ..block },
            8 => Block {
                side: if block.side == Side::Buy { Side::Sell } else { Side::Buy },
                ..block
            },
            _ => {
                let Block { side, hours, price, quantity, .. } = model;
                Block { side, hours, price, quantity: self.near(quantity, 3), ..block }
            }
        };
        Block {
            hours: if changed.hours.count_ones() < 2 { hours } else { changed.hours },
            price: changed.price.clamp(1, 300_000),
            quantity: changed.quantity.clamp(1, self.limits.block_quantity),
            ..changed
        }
    }

    /// A number that differs by so much at most.
    fn near(&mut self, number: u32, by: u32) -> u32 {
        (number + self.dice.between(0, 2 * by)).saturating_sub(by)
    }

    /// The average of what the hours pay in the last result, moved by up to 2 %.
    fn paid_near(&mut self, hours: u32) -> u32 {
        let prices = Published::from_bytes(&self.result).prices;
        let sum: u32 = hours_in(hours).iter().map(|&hour| prices[hour as usize - 1]).sum();
        let average = sum / hours.count_ones();
        self.near(average, average / 50)
    }

    fn write_blocks(&mut self) {
        for block in &self.blocks {
            let record = &mut self.book[16 * block.record..][..16];
            record[1] = u8::from(block.side == Side::Sell);
            record[8..11].copy_from_slice(&block.hours.to_be_bytes()[1..]);
            record[11..14].copy_from_slice(&block.price.to_be_bytes()[1..]);
            record[14..].copy_from_slice(&block.quantity.to_be_bytes()[2..]);
        }
    }

    /// What the search of the book takes.
    fn worst(&mut self) -> String {
        let start = Instant::now();
        let nodes = self.counted().expect("it was cleared");
        let millis = start.elapsed().as_secs_f64() * 1e3;
        let more = if nodes < self.cap { "" } else { "more than " };
        format!("{more}{nodes} nodes, {millis:.1} ms, {} blocks of its own", self.own.len())
    }
}
