//! What is expected of the benchmark's books: the lines of `bench-books/expected.txt`.

/// A line: a book's file name, then words and values by turns.
#[derive(Clone, Debug, PartialEq, Eq)]
pub struct Expected {
    /// The name of the book's file.
    pub file: String,
    pub blocks: usize,
    /// The published set; the lowest bit stands for the first block of the chain.
    pub set: u32,
    /// How many blocks it takes.
    pub taken: u32,
    pub welfare: u64,
    /// The nodes of the search that the line was written with.
    pub nodes: u64,
    /// What the bound of the search is above the welfare, and the bound itself.
    pub loss: u64,
    pub bound: u64,
    pub prices: Vec<u32>,
}

impl Expected {
    /// All lines of the file, or the line that cannot be read.
    pub fn lines(text: &str) -> Result<Vec<Expected>, String> {
        text.lines().map(|line| Expected::of(line).ok_or(line.to_string())).collect()
    }

    fn of(line: &str) -> Option<Expected> {
        let mut words = line.split(' ');
        let file = words.next()?.to_string();
        let pairs: Vec<&str> = words.collect();
        let value = |word: &str| pairs.chunks(2).find(|pair| pair[0] == word)?.get(1).copied();
        let prices: Result<Vec<u32>, _> = value("prices")?.split(',').map(str::parse).collect();
        Some(Expected {
            file,
            blocks: value("blocks")?.parse().ok()?,
            set: u32::from_str_radix(value("set")?, 16).ok()?,
            taken: value("taken")?.parse().ok()?,
            welfare: value("welfare")?.parse().ok()?,
            nodes: value("nodes")?.parse().ok()?,
            loss: value("loss")?.parse().ok()?,
            bound: value("LPbound")?.parse().ok()?,
            prices: prices.ok()?,
        })
    }
}
