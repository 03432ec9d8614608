//! A book to be cleared, with what is expected of it where that is known.

use auction_listing::books::Expected;
use auction_listing::paper::{self, Published};
use std::path::{Path, PathBuf};

pub struct Subject {
    pub name: String,
    pub book: Vec<u8>,
    pub steps: usize,
    pub blocks: usize,
    pub expected: Option<Expected>,
}

/// The result's length for a book.
pub fn result_length(book: &[u8]) -> usize {
    paper::result_length(book.len() / 16)
}

/// The books of files and of folders.
pub fn from_paths(paths: &[String]) -> Vec<Subject> {
    let files = paths.iter().flat_map(|path| books_in(Path::new(path)));
    files.map(|file| Subject::from_file(&file.to_string_lossy())).collect()
}

fn books_in(path: &Path) -> Vec<PathBuf> {
    if !path.is_dir() {
        return vec![path.to_path_buf()];
    }
    let entries = std::fs::read_dir(path).expect("a folder of books");
    let files = entries.map(|entry| entry.expect("a file").path());
    let mut books: Vec<PathBuf> =
        files.filter(|file| file.extension().is_some_and(|kind| kind == "book")).collect();
    books.sort();
    books
}

impl Subject {
    pub fn new(name: String, book: Vec<u8>) -> Subject {
        let accepted = paper::read(&book).unwrap_or_else(|refusal| panic!("{name}: {refusal}"));
        let (steps, blocks) = (accepted.steps.len(), accepted.blocks.len());
        Subject { name, steps, blocks, book, expected: None }
    }

    pub fn from_file(file: &str) -> Subject {
        let book = std::fs::read(file).unwrap_or_else(|error| panic!("{file}: {error}"));
        let path = Path::new(file);
        let base = path.file_name().map_or("", |name| name.to_str().unwrap_or(""));
        let mut subject = Subject::new(base.trim_end_matches(".book").to_string(), book);
        subject.expected = expected_of(path, base);
        subject
    }

    /// Whether a result has the expected set, welfare and prices.
    pub fn is_expected(&self, result: &[u8]) -> bool {
        let Some(expected) = &self.expected else { return true };
        let published = Published::from_bytes(result);
        let accepted = paper::read(&self.book).expect("accepted");
        published.set(&accepted) == expected.set
            && published.welfare == expected.welfare
            && published.prices == expected.prices
    }

    /// The same book with its blocks priced out: the same tables, and hardly a search.
    pub fn priced_out(&self) -> Vec<u8> {
        let mut book = self.book.clone();
        for block in paper::read(&self.book).expect("accepted").blocks {
            let price: u32 = if block.side == paper::Side::Buy { 1 } else { 300_000 };
            let at = 16 * block.record + 11;
            book[at..at + 3].copy_from_slice(&price.to_be_bytes()[1..]);
        }
        book
    }
}

/// The line of `expected.txt` beside a book, where there is one.
fn expected_of(path: &Path, base: &str) -> Option<Expected> {
    let text = std::fs::read_to_string(path.with_file_name("expected.txt")).ok()?;
    let lines = Expected::lines(&text).unwrap_or_else(|line| panic!("expected.txt: {line}"));
    lines.into_iter().find(|line| line.file == base)
}
