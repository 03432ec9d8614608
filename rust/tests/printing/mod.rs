//! A program that reads a book on its standard input, against what this package writes of
//! it: books in every manner that bytes arrive. Every such program reads, refuses and ends
//! its lines in the same way, so that all are held to the same.

use crate::sample_files::{names, path, sample};
use auction_listing::books::{
    cash_book_on, count, reader_book_of, reader_book_on, small_book_of, small_book_on,
    small_orders, thirty_two_blocks, Dice, Met, Orders, StepOrder, DAYS,
};
use auction_listing::paper::{self, Book, Side};
use auction_listing::twin::by_value::clearing;
use std::fs::File;
use std::io::Write;
use std::os::fd::OwnedFd;
use std::os::unix::net::UnixDatagram;
use std::path::{Path, PathBuf};
use std::process::{Child, ChildStdin, Command, Stdio};
use std::thread::sleep;
use std::time::Duration;

/// The most bytes and records that a book has.
const FULL: usize = 32_768;
const FULL_RECORDS: usize = 2_048;
/// The first seed: other books than those the library is tried on.
const FIRST_SEED: u64 = 1_000_000;

fn repository() -> PathBuf {
    Path::new(env!("CARGO_MANIFEST_DIR")).join("..")
}

/// A program that writes something of the book on its standard input.
pub struct Program {
    /// The name of its crate and of its file in `../target/bin`.
    pub name: &'static str,
    /// The environment variable that names another file.
    pub variable: &'static str,
    /// The command at the root of the repository, which builds it where that is needed.
    pub command: &'static str,
    /// The ending of the samples that it writes.
    pub ending: &'static str,
    /// What it writes of any bytes, by the listing of all sets.
    pub listing: fn(&[u8]) -> Vec<u8>,
    /// What it writes of an accepted book and its result.
    pub of_result: fn(&Book, &[u8]) -> Vec<u8>,
}

/// The tests to which each program is held.
macro_rules! tests_of {
    ($program:ident) => {
        $crate::printing::tests_of! { $program:
            the_samples_are_printed
            the_bench_books_are_printed
            the_command_prints_the_samples
            random_books_are_printed
            each_length_has_its_answer
            a_long_file_is_refused
            single_bytes_give_the_same
            two_parts_give_the_same
            short_reads_give_the_same
            no_input_is_refusal_1
            an_input_that_cannot_be_read_is_refusal_1
            an_output_that_cannot_be_written_is_no_complaint
        }
    };
    ($program:ident: $($test:ident)*) => {
        $(
            #[test]
            fn $test() {
                $program.$test();
            }
        )*
    };
}
pub(crate) use tests_of;

fn started(program: &Path, input: Stdio) -> Child {
    let mut command = Command::new(program);
    command.stdin(input).stdout(Stdio::piped()).stderr(Stdio::piped());
    command.spawn().unwrap_or_else(|error| {
        panic!("{}: {error}; `./build` at the root makes it", program.display())
    })
}

/// What a program writes until it ends, which it does without complaint.
fn written_by(running: Child) -> Vec<u8> {
    let output = running.wait_with_output().expect("the program ends");
    let complaint = String::from_utf8_lossy(&output.stderr);
    assert_eq!((output.status.code(), &*complaint), (Some(0), ""));
    output.stdout
}

/// The texts, which a failure shows better than bytes.
fn assert_same(found: Vec<u8>, expected: &[u8], name: &str) {
    let found = String::from_utf8_lossy(&found);
    assert_eq!(found, String::from_utf8_lossy(expected), "{name}");
}

fn refused(number: u8) -> Vec<u8> {
    format!("refused;{number}\n").into_bytes()
}

impl Program {
    fn file(&self) -> PathBuf {
        match std::env::var_os(self.variable) {
            Some(named) => named.into(),
            None => repository().join("target/bin").join(self.name),
        }
    }

    fn start(&self, input: Stdio) -> Child {
        started(&self.file(), input)
    }

    /// What is written of a sample.
    fn sample(&self, name: &str) -> Vec<u8> {
        sample(name, self.ending)
    }

    /// What is written of what goes to the program's pipe, which is then closed.
    fn printed_from_pipe(&self, write: impl FnOnce(&mut ChildStdin)) -> Vec<u8> {
        let mut running = self.start(Stdio::piped());
        write(&mut running.stdin.take().expect("piped"));
        written_by(running)
    }

    fn printed(&self, book: &[u8]) -> Vec<u8> {
        self.printed_from_pipe(|pipe| {
            // Of an input that is too long the program does not read the rest.
            let written = pipe.write_all(book);
            assert!(written.is_ok() || book.len() > FULL, "a book of {} bytes", book.len());
        })
    }

    /// Of a book that comes in two parts.
    fn printed_in_parts(&self, book: &[u8], cut: usize) -> Vec<u8> {
        self.printed_from_pipe(|pipe| {
            pipe.write_all(&book[..cut]).expect("the program reads");
            sleep(Duration::from_millis(20));
            pipe.write_all(&book[cut..]).expect("the program reads on");
        })
    }

    /// Of a book in packets. A pipe may join what was written in parts; a read of a packet
    /// socket never gets more than one packet.
    fn printed_in_packets(&self, book: &[u8], size: usize) -> Vec<u8> {
        let (ours, theirs) = UnixDatagram::pair().expect("two sockets");
        let running = self.start(OwnedFd::from(theirs).into());
        for packet in book.chunks(size) {
            ours.send(packet).expect("the program reads on");
        }
        // An empty packet is the end of the input.
        ours.send(&[]).expect("the program reads on");
        written_by(running)
    }

    pub fn the_samples_are_printed(&self) {
        for name in names() {
            let (book, expected) = (sample(&name, "book"), self.sample(&name));
            assert_same(self.printed(&book), &expected, &name);
            let file = File::open(path(&name, "book")).expect("the sample");
            assert_same(written_by(self.start(file.into())), &expected, &name);
        }
    }

    /// The books of the benchmark, whose sets of blocks are too many to list: against the
    /// by-value twin's result.
    pub fn the_bench_books_are_printed(&self) {
        let folder = Path::new(env!("CARGO_MANIFEST_DIR")).join("bench-books");
        let entries = std::fs::read_dir(folder).expect("the bench books");
        let files = entries.map(|entry| entry.expect("an entry").path());
        let books: Vec<PathBuf> =
            files.filter(|file| file.extension().is_some_and(|e| e == "book")).collect();
        assert_eq!(books.len(), 20);
        for file in books {
            let book = std::fs::read(&file).expect("a book");
            let accepted = paper::read(&book).expect("accepted");
            let mut result = vec![0; paper::result_length(accepted.record_count)];
            assert!(clearing::clear(&book, &mut result).is_ok());
            let name = file.display().to_string();
            assert_same(self.printed(&book), &(self.of_result)(&accepted, &result), &name);
        }
    }

    pub fn the_command_prints_the_samples(&self) {
        let command = repository().join(self.command);
        for name in names() {
            let file = File::open(path(&name, "book")).expect("the sample");
            let printed = written_by(started(&command, file.into()));
            assert_same(printed, &self.sample(&name), &name);
        }
    }

    /// Three in five accepted books, the others damaged in most cases, of all editions.
    pub fn random_books_are_printed(&self) {
        let wanted = count("BOOKS", 3_000);
        let mut met = Met::default();
        let mut seed = FIRST_SEED;
        while met.all() < wanted {
            for (name, book) in random_books(seed) {
                let reading = paper::read(&book);
                if reading.as_ref().is_ok_and(|accepted| accepted.blocks.len() > 10) {
                    continue; // the listing of all sets takes too long
                }
                assert_same(self.printed(&book), &(self.listing)(&book), &name);
                met.add(reading.err().unwrap_or(0));
            }
            seed += 1;
        }
        met.has_each([0, 1, 2, 3, 4, 5, 6, 9, 10], 1);
    }

    /// Short inputs, full ones and those that are too long.
    pub fn each_length_has_its_answer(&self) {
        for inputs in [short_inputs(), full_inputs(), long_inputs()] {
            for (index, (length, input, expected)) in inputs.into_iter().enumerate() {
                assert_eq!(input.len(), length);
                let expected = match expected {
                    Expected::Refused(number) => refused(number),
                    Expected::Sample(name) => self.sample(name),
                    Expected::Listing => (self.listing)(&input),
                };
                let name = format!("input {index} of {length} bytes");
                assert_same(self.printed(&input), &expected, &name);
            }
        }
    }

    /// From a file there is no writer that could feel a program's early end.
    pub fn a_long_file_is_refused(&self) {
        let file = format!("long-{}.book", self.name);
        let name = Path::new(env!("CARGO_TARGET_TMPDIR")).join(file);
        for length in [FULL + 1, 100_000] {
            std::fs::write(&name, lengthened(&full_book(), length, 0)).expect("a file");
            let file = File::open(&name).expect("the file");
            assert_same(written_by(self.start(file.into())), &refused(1), "a long file");
        }
    }

    pub fn single_bytes_give_the_same(&self) {
        for name in ["S5", "S6", "linked-both", "cash-autumn", "refused-1", "refused-3"] {
            let book = sample(name, "book");
            let printed = self.printed_from_pipe(|pipe| {
                for byte in &book {
                    pipe.write_all(&[*byte]).expect("the program reads on");
                    pipe.flush().expect("the program reads on");
                    // So that the program has read it before the next one comes.
                    sleep(Duration::from_millis(1));
                }
            });
            assert_same(printed, &self.sample(name), name);
        }
    }

    pub fn two_parts_give_the_same(&self) {
        let (book, expected) = (sample("S5", "book"), self.sample("S5"));
        for cut in [0, 1, 15, 16, 17, 48, 80, book.len() - 1, book.len()] {
            assert_same(self.printed_in_parts(&book, cut), &expected, &format!("S5 cut at {cut}"));
        }
        let full = full_book();
        let expected = self.sample("thirty-two-blocks");
        for cut in [1, 4_096, FULL / 2, FULL - 1] {
            let name = format!("a full book cut at {cut}");
            assert_same(self.printed_in_parts(&full, cut), &expected, &name);
        }
    }

    pub fn short_reads_give_the_same(&self) {
        for name in names() {
            for size in [1, 3, 16] {
                let printed = self.printed_in_packets(&sample(&name, "book"), size);
                let of_size = format!("{name} in packets of {size}");
                assert_same(printed, &self.sample(&name), &of_size);
            }
        }
        for size in [1, 100, 4_095, 4_096] {
            let printed = self.printed_in_packets(&full_book(), size);
            let name = format!("a full book in packets of {size}");
            assert_same(printed, &self.sample("thirty-two-blocks"), &name);
        }
    }

    pub fn no_input_is_refusal_1(&self) {
        assert_same(self.printed_from_pipe(|_| ()), &refused(1), "closed at once");
        let late = self.printed_from_pipe(|_| sleep(Duration::from_millis(50)));
        assert_same(late, &refused(1), "closed later");
        assert_same(written_by(self.start(Stdio::null())), &refused(1), "an empty file");
    }

    /// Reads that fail at once count as no input.
    pub fn an_input_that_cannot_be_read_is_refusal_1(&self) {
        let directory = File::open(repository()).expect("a directory");
        assert_same(written_by(self.start(directory.into())), &refused(1), "a directory");
        let mut shell = Command::new("sh");
        shell.args(["-c", "exec \"$0\" <&-"]).arg(self.file());
        let output = shell.output().expect("a shell");
        assert_eq!(output.status.code(), Some(0));
        assert_same(output.stdout, &refused(1), "no standard input at all");
    }

    /// What cannot be written is lost, and the program ends as it does otherwise.
    pub fn an_output_that_cannot_be_written_is_no_complaint(&self) {
        for redirected in [">&-", ">/dev/full"] {
            let mut shell = Command::new("sh");
            shell.args(["-c", &format!("exec \"$0\" <\"$1\" {redirected}")]).arg(self.file());
            let output = shell.arg(path("S5", "book")).output().expect("a shell");
            assert_eq!((output.status.code(), &output.stderr[..]), (Some(0), &b""[..]));
        }
        // With nobody at the other end of its pipe the system ends it.
        let file = File::open(path("S5", "book")).expect("the sample");
        let mut running = self.start(file.into());
        drop(running.stdout.take());
        running.wait().expect("the program ends");
    }
}

/// The books of a seed, each with its name.
fn random_books(seed: u64) -> [(String, Vec<u8>); 5] {
    let edition = 1 + (seed % 3) as u32;
    let day = DAYS[(seed / 3) as usize % DAYS.len()];
    let on = format!("on({day}, {edition}, {seed})");
    [
        (format!("small_book_of({edition}, {seed})"), small_book_of(edition, seed)),
        (format!("reader_book_of({edition}, {seed})"), reader_book_of(edition, seed)),
        (format!("small_book_{on}"), small_book_on(day, edition, seed)),
        (format!("reader_book_{on}"), reader_book_on(day, edition, seed)),
        (format!("cash_book_{on}"), cash_book_on(day, edition, seed)),
    ]
}

/// A head of so many records, and zeros up to a length.
fn head_and_zeros(records: usize, length: usize) -> Vec<u8> {
    let mut book = vec![0; length];
    book[..2].copy_from_slice(&(records as u16).to_be_bytes());
    book[6..8].copy_from_slice(&[24, 1]);
    book
}

/// The book with 32 blocks, filled up to the most records by buys at 1 cent. No
/// price of that day is below 3000, so they change nothing that is written of it.
fn full_book() -> Vec<u8> {
    let mut orders = thirty_two_blocks();
    while orders.count() + 1 < FULL_RECORDS {
        let hour = 1 + orders.count() as u32 % 24;
        orders = orders.step(Side::Buy, hour, 1, 99_999, 1);
    }
    orders.book()
}

/// A random book of the most records, few of them blocks.
fn full_random_book(seed: u64) -> Vec<u8> {
    let mut dice = Dice::new(seed);
    let mut orders = Orders { steps: Vec::new(), ..small_orders(&mut dice) };
    orders.blocks.truncate(4);
    while orders.count() + 1 < FULL_RECORDS {
        orders.steps.push(StepOrder {
            number: 1 + orders.steps.len() as u32,
            side: dice.pick(&[Side::Buy, Side::Sell]),
            hour: dice.between(1, 24),
            price: dice.between(2_000, 6_000),
            quantity: dice.between(1, 100),
            portfolio: dice.between(1, 255),
        });
    }
    orders.shuffled_book(&mut dice)
}

fn lengthened(book: &[u8], length: usize, filler: u8) -> Vec<u8> {
    let mut longer = book.to_vec();
    longer.resize(length, filler);
    longer
}

/// The answer that the paper gives.
enum Expected {
    Refused(u8),
    /// That of a sample.
    Sample(&'static str),
    Listing,
}

/// An input's length, the input, and what is expected of it.
type Case = (usize, Vec<u8>, Expected);

fn short_inputs() -> Vec<Case> {
    let head = head_and_zeros(1, 16);
    vec![
        (0, Vec::new(), Expected::Refused(1)),
        (15, head[..15].to_vec(), Expected::Refused(1)),
        (15, vec![0; 15], Expected::Refused(1)),
        (16, head.clone(), Expected::Sample("head-alone")),
        // R of 0, and an R that wants one record more.
        (16, head_and_zeros(0, 16), Expected::Refused(1)),
        (16, head_and_zeros(2, 16), Expected::Refused(1)),
        (16, [&head[..15], &[1]].concat(), Expected::Refused(2)),
        (17, lengthened(&head, 17, 0), Expected::Refused(1)),
    ]
}

fn full_inputs() -> Vec<Case> {
    let full = full_book();
    let random = full_random_book(FIRST_SEED);
    assert!(paper::read(&random).is_ok());
    vec![
        (FULL - 1, full[..FULL - 1].to_vec(), Expected::Refused(1)),
        (FULL, full, Expected::Sample("thirty-two-blocks")),
        (FULL, random, Expected::Listing),
        (FULL, vec![0; FULL], Expected::Refused(1)),
        (FULL, head_and_zeros(FULL_RECORDS - 1, FULL), Expected::Refused(1)),
        // Its records 1 to 2,047 are on no chain.
        (FULL, head_and_zeros(FULL_RECORDS, FULL), Expected::Refused(5)),
        (FULL, sample("S5", "book").repeat(342)[..FULL].to_vec(), Expected::Refused(1)),
    ]
}

/// Whatever they hold, refusal 1: also where their start is a book by itself, and
/// where R is the count of records, cut to its two bytes.
fn long_inputs() -> Vec<Case> {
    let mut inputs = Vec::new();
    for length in [FULL + 1, FULL + 16, 65_536, 65_537, 100_000, 16 * 65_537] {
        inputs.push(lengthened(&full_book(), length, 0));
        inputs.push(lengthened(&full_book(), length, 255));
        inputs.push(lengthened(&sample("S5", "book"), length, 0));
        inputs.push(head_and_zeros(length / 16, length));
        inputs.push(vec![0; length]);
    }
    inputs.into_iter().map(|input| (input.len(), input, Expected::Refused(1))).collect()
}
