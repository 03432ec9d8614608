//! A plain-text form of a book, for people.
//!
//! One order a line; `#` begins a comment; empty lines are skipped:
//!
//! ```text
//! step buy hour 1 price 5000 quantity 100 portfolio 1
//! step sell hour 1 price 3000 quantity 100 portfolio 2 number 7
//! block sell hours 1,2 price 2900 quantity 50 portfolio 3
//! block buy hours 1-8,21-24 price 4100 quantity 10 portfolio 3
//! ```
//!
//! - A line `edition 2`, `edition 3` or `edition 4` in front of all orders makes a book of
//!   that edition. Without one the book is of edition 1.
//! - A line `day 23` or `day 25` in front of all orders makes the book of a day of so many
//!   hours. Without one the day has 24.
//! - A line of an order begins with `step` or `block` and `buy` or `sell`. The fields
//!   follow, each a word and its value, in any order.
//! - Prices are whole cents per MWh, 1 to 300000. Quantities are whole tenths of
//!   a MW: 1 to 99999 for a step, for a block 1 to 50 in edition 1 and 1 to 250 in the
//!   later ones.
//! - `number` may be left out: an order then gets one more than the order of
//!   its kind on the line before it; the first gets 1. Steps and blocks are
//!   numbered separately.
//! - From edition 3 on a line `link child 4 parent 2` says that block 4 may be taken only with
//!   block 2. The parent has the lower number, and a block is a child once at most; the
//!   blocks may stand on later lines.
//! - The first order or link stands in record 1 of the book, the second in record 2, and
//!   so on. The chains follow the numbers, whatever the order of the lines.
//!
//! So every accepted book has a text that gives back its very bytes. No text
//! gives a refused book.

use crate::books::{hour_bits, hours_in, BlockOrder, LinkOrder, Orders, StepOrder};
use crate::paper::{limits, passing_hours, read, Block, Book, Limits, Link, Side, Step};
use std::fmt;
use std::ops::RangeInclusive;

/// What is wrong with a text, and on which line.
#[derive(Clone, Debug, PartialEq, Eq)]
pub struct TextError {
    /// The first line is 1.
    pub line: usize,
    pub message: String,
}

impl fmt::Display for TextError {
    fn fmt(&self, out: &mut fmt::Formatter) -> fmt::Result {
        write!(out, "line {}: {}", self.line, self.message)
    }
}

/// The cause of a refusal in the words of documents 01 and 02.
pub fn refusal_meaning(refusal: u8) -> &'static str {
    match refusal {
        1 => "the length is not 16 x R, below 16 bytes, or R is outside 1 to 2048",
        2 => "head: hours not 23, 24 or 25, edition not 1 to 4, or bytes 8 to 15, from edition 3 on bytes 10 to 15, not all 0",
        3 => "on a chain: an index of R or more, a kind not the chain's, or a number that does not rise",
        4 => "on a chain: a field outside its range",
        5 => "a record is on no chain",
        6 => "more than 32 blocks, or of one portfolio more than 5 in edition 1, 10 in editions 2 to 4",
        7 => "the result buffer is not 196 + 4 x R bytes",
        8 => "the hour is outside 1 to 24, or 3 on a day of 23 hours, or the set names a block position not there",
        9 => "on a day of 23 hours: a step for hour 3, or a block with fewer than two other hours",
        10 => "a link that names a block not in the book, or whose parent's number is not below the child's",
        11 => "in edition 4: more than 256 steps of a portfolio in one hour",
        _ => "not a refusal of documents 01 and 02",
    }
}

/// An order or a link with the line it stands on.
struct Line<T> {
    line: usize,
    /// The record that it gets.
    record: usize,
    order: T,
}

/// The edition of a text that names none, and the latest that it can name.
const FIRST_EDITION: u32 = 1;
const LAST_EDITION: u32 = 4;

/// The first edition with links.
const LINKED_EDITION: u32 = 3;

/// The hours of a day, where a text says nothing of them, and those that it can name.
const USUAL_DAY: u32 = 24;
const DAYS: RangeInclusive<u32> = 23..=25;

/// Turns a text into the bytes of a book.
pub fn to_book(text: &str) -> Result<Vec<u8>, TextError> {
    let mut lines = Lines::default();
    for (index, full_line) in text.lines().enumerate() {
        let line = index + 1;
        if let Some((kind, words)) = words_of(full_line).split_first() {
            lines.add(line, kind, words).map_err(|message| TextError { line, message })?;
        }
    }
    lines.book()
}

/// What the lines of a text say.
#[derive(Default)]
struct Lines {
    edition: Option<u32>,
    day: Option<u32>,
    steps: Vec<Line<StepOrder>>,
    blocks: Vec<Line<BlockOrder>>,
    links: Vec<Line<LinkOrder>>,
}

impl Lines {
    /// Adds the line that begins with the word `kind`.
    fn add(&mut self, line: usize, kind: &str, words: &[&str]) -> Result<(), String> {
        let record = self.records() + 1;
        match kind {
            "edition" => return self.name_edition(words),
            "day" => return self.name_day(words),
            "step" => {
                let default = 1 + self.steps.last().map_or(0, |before| before.order.number);
                let order = step_of(words, default)?;
                self.check_step(&order)?;
                self.steps.push(Line { line, record, order });
            }
            "block" => {
                let default = 1 + self.blocks.last().map_or(0, |before| before.order.number);
                let order = block_of(words, default, self.limits())?;
                self.check_block(&order)?;
                self.blocks.push(Line { line, record, order });
            }
            "link" => {
                let order = link_of(words, self.edition())?;
                self.links.push(Line { line, record, order });
            }
            other => {
                return Err(format!(
                    "`{other}` where an order begins; expected `step` or `block`, `link` from edition 3 on, or `edition` or `day` in front of them"
                ))
            }
        }
        if record > 2_047 {
            return Err("order 2048 of the book; expected at most 2047".into());
        }
        Ok(())
    }

    /// The orders and links so far.
    fn records(&self) -> usize {
        self.steps.len() + self.blocks.len() + self.links.len()
    }

    /// The line `edition` and its value, on which the ranges of the blocks depend.
    fn name_edition(&mut self, words: &[&str]) -> Result<(), String> {
        let value = self.value_in_front("edition", self.edition, words)?;
        self.edition = Some(whole_number("edition", value, LAST_EDITION)?);
        Ok(())
    }

    /// The line `day` and its value, on which the hours of the orders depend.
    fn name_day(&mut self, words: &[&str]) -> Result<(), String> {
        let value = self.value_in_front("day", self.day, words)?;
        self.day = Some(number_within("day", value, DAYS)?);
        Ok(())
    }

    /// The value of a line that stands once and in front of all orders, with what the name
    /// has stood for so far.
    fn value_in_front<'a>(
        &self,
        name: &str,
        so_far: Option<u32>,
        words: &[&'a str],
    ) -> Result<&'a str, String> {
        let value = match words {
            [value] => value,
            [] => return Err(format!("`{name}` has no value; expected one after it")),
            [_, other, ..] => {
                return Err(format!("`{other}` after the {name}; expected the end of the line"))
            }
        };
        if so_far.is_some() {
            return Err(format!("`{name}` stands twice; expected it once"));
        }
        if self.records() > 0 {
            return Err(format!("`{name}` after an order; expected it in front of all orders"));
        }
        Ok(value)
    }

    fn edition(&self) -> u32 {
        self.edition.unwrap_or(FIRST_EDITION)
    }

    fn day(&self) -> u32 {
        self.day.unwrap_or(USUAL_DAY)
    }

    /// How many of some hours the day has.
    fn hours_within(&self, hours: &[u32]) -> usize {
        let day = passing_hours(self.day()).expect("only known days are named");
        hours.iter().filter(|hour| day.contains(hour)).count()
    }

    /// Refusals 9 and 11 at a step.
    fn check_step(&self, order: &StepOrder) -> Result<(), String> {
        let (hour, day) = (order.hour, self.day());
        if self.hours_within(&[hour]) == 0 {
            return Err(format!("`hour {hour}` is not on a day of {day} hours; expected another"));
        }
        let Some(most) = self.limits().steps_in_an_hour else { return Ok(()) };
        let portfolio = order.portfolio;
        let same = |it: &&Line<StepOrder>| (it.order.portfolio, it.order.hour) == (portfolio, hour);
        if self.steps.iter().filter(same).count() == most {
            let number = most + 1;
            return Err(format!(
                "step {number} of portfolio {portfolio} in hour {hour}; expected at most {most}"
            ));
        }
        Ok(())
    }

    /// Refusal 9 at a block.
    fn check_block(&self, order: &BlockOrder) -> Result<(), String> {
        let hours = hours_in(order.hours);
        if self.hours_within(&hours) < 2 {
            let (hours, day) = (hours_text(&hours), self.day());
            return Err(format!(
                "`hours {hours}` is one hour on a day of {day} hours; expected at least two"
            ));
        }
        Ok(())
    }

    fn limits(&self) -> Limits {
        limits(self.edition()).expect("only known editions are named")
    }

    /// The book of all lines.
    fn book(mut self) -> Result<Vec<u8>, TextError> {
        check_blocks(&self.blocks, self.limits())?;
        sort_by_number(&mut self.steps, "step", |order| order.number)?;
        sort_by_number(&mut self.blocks, "block", |order| order.number)?;
        check_links(&self.links, &self.blocks)?;
        sort_by_number(&mut self.links, "child", |order| order.child)?;
        let step_records = self.steps.iter().map(|entry| entry.record);
        let block_records = self.blocks.iter().map(|entry| entry.record);
        let link_records = self.links.iter().map(|entry| entry.record);
        let records: Vec<usize> = step_records.chain(block_records).chain(link_records).collect();
        let orders = Orders {
            edition: self.edition(),
            day: self.day(),
            steps: self.steps.iter().map(|entry| entry.order).collect(),
            blocks: self.blocks.iter().map(|entry| entry.order).collect(),
            links: self.links.iter().map(|entry| entry.order).collect(),
        };
        Ok(orders.book_at(&records))
    }
}

/// The words of a line without its comment.
fn words_of(line: &str) -> Vec<&str> {
    let content = line.split('#').next().unwrap_or("");
    content.split_whitespace().collect()
}

/// The limits of refusal 6, with the line that breaks them.
fn check_blocks(blocks: &[Line<BlockOrder>], limits: Limits) -> Result<(), TextError> {
    let most = limits.blocks_of_a_portfolio;
    for (position, entry) in blocks.iter().enumerate() {
        let fault = |message| Err(TextError { line: entry.line, message });
        if position >= 32 {
            return fault("block 33 of the book; expected at most 32 blocks".into());
        }
        let portfolio = entry.order.portfolio;
        let so_far = blocks[..=position].iter();
        if so_far.filter(|other| other.order.portfolio == portfolio).count() > most {
            return fault(format!(
                "block {} of portfolio {portfolio}; expected at most {most} of one portfolio",
                most + 1
            ));
        }
    }
    Ok(())
}

/// The blocks of refusal 10, with the link that names one that is not there.
fn check_links(links: &[Line<LinkOrder>], blocks: &[Line<BlockOrder>]) -> Result<(), TextError> {
    for entry in links {
        for (word, number) in [("child", entry.order.child), ("parent", entry.order.parent)] {
            if !blocks.iter().any(|block| block.order.number == number) {
                let message = format!("`{word} {number}`; expected the number of a block");
                return Err(TextError { line: entry.line, message });
            }
        }
    }
    Ok(())
}

/// Brings orders into chain order; a number may be there only once.
fn sort_by_number<T>(
    orders: &mut [Line<T>],
    kind: &str,
    number: impl Fn(&T) -> u32,
) -> Result<(), TextError> {
    // A stable sort: of equal numbers the later line comes second.
    orders.sort_by_key(|entry| number(&entry.order));
    for pair in orders.windows(2) {
        if number(&pair[0].order) == number(&pair[1].order) {
            let (number, first) = (number(&pair[1].order), pair[0].line);
            let message = format!(
                "{kind} number {number} is already on line {first}; expected each number once among the {}",
                if kind == "child" { "children".into() } else { format!("{kind}s") }
            );
            return Err(TextError { line: pair[1].line, message });
        }
    }
    Ok(())
}

const STEP_FIELDS: [&str; 5] = ["hour", "price", "quantity", "portfolio", "number"];
const BLOCK_FIELDS: [&str; 5] = ["hours", "price", "quantity", "portfolio", "number"];
const LINK_FIELDS: [&str; 2] = ["child", "parent"];

fn step_of(words: &[&str], default_number: u32) -> Result<StepOrder, String> {
    let (side, rest) = side_of(words)?;
    let fields = Fields::new(rest, &STEP_FIELDS)?;
    Ok(StepOrder {
        number: fields.number_or(default_number)?,
        side,
        hour: fields.whole("hour", 24)?,
        price: fields.whole("price", 300_000)?,
        quantity: fields.whole("quantity", 99_999)?,
        portfolio: fields.whole("portfolio", 255)?,
    })
}

fn block_of(words: &[&str], default_number: u32, limits: Limits) -> Result<BlockOrder, String> {
    let (side, rest) = side_of(words)?;
    let fields = Fields::new(rest, &BLOCK_FIELDS)?;
    Ok(BlockOrder {
        number: fields.number_or(default_number)?,
        side,
        hours: hours_of(fields.required("hours")?)?,
        price: fields.whole("price", 300_000)?,
        quantity: fields.whole("quantity", limits.block_quantity)?,
        portfolio: fields.whole("portfolio", 255)?,
    })
}

fn link_of(words: &[&str], edition: u32) -> Result<LinkOrder, String> {
    if edition < LINKED_EDITION {
        return Err(format!(
            "`link` in edition {edition}; expected `edition 3` or `edition 4` in front of all orders"
        ));
    }
    let fields = Fields::new(words, &LINK_FIELDS)?;
    let (child, parent) = (fields.whole("child", 65_535)?, fields.whole("parent", 65_535)?);
    if parent >= child {
        return Err(format!("`child {child} parent {parent}`; expected a parent below its child"));
    }
    Ok(LinkOrder { child, parent })
}

fn side_of<'a, 'b>(words: &'a [&'b str]) -> Result<(Side, &'a [&'b str]), String> {
    match words.first() {
        Some(&"buy") => Ok((Side::Buy, &words[1..])),
        Some(&"sell") => Ok((Side::Sell, &words[1..])),
        Some(other) => Err(format!("`{other}` where the side stands; expected `buy` or `sell`")),
        None => Err("the line ends before the side; expected `buy` or `sell`".into()),
    }
}

/// The fields of one line, each a word and its value.
struct Fields<'a> {
    values: Vec<(&'a str, &'a str)>,
}

impl<'a> Fields<'a> {
    fn new(words: &[&'a str], known: &[&str]) -> Result<Fields<'a>, String> {
        let mut values: Vec<(&str, &str)> = Vec::new();
        for pair in words.chunks(2) {
            let name = pair[0];
            if !known.contains(&name) {
                return Err(format!(
                    "unknown field `{name}`; expected one of: {}",
                    known.join(", ")
                ));
            }
            if values.iter().any(|&(other, _)| other == name) {
                return Err(format!("`{name}` stands twice; expected it once"));
            }
            let Some(&value) = pair.get(1) else {
                return Err(format!("`{name}` has no value; expected one after it"));
            };
            values.push((name, value));
        }
        Ok(Fields { values })
    }

    fn value(&self, name: &str) -> Option<&'a str> {
        let found = self.values.iter().find(|&&(other, _)| other == name);
        found.map(|&(_, value)| value)
    }

    fn required(&self, name: &str) -> Result<&'a str, String> {
        self.value(name)
            .ok_or_else(|| format!("`{name}` is missing; expected `{name}` and its value"))
    }

    /// A required whole number from 1 to `most`.
    fn whole(&self, name: &str, most: u32) -> Result<u32, String> {
        whole_number(name, self.required(name)?, most)
    }

    /// The order number, or the one that follows when none is given.
    fn number_or(&self, default: u32) -> Result<u32, String> {
        match self.value("number") {
            Some(value) => whole_number("number", value, 65_535),
            None if default > 65_535 => {
                Err("no number follows 65535; expected `number` and its value".into())
            }
            None => Ok(default),
        }
    }
}

/// A whole number from 1 to `most`.
fn whole_number(name: &str, value: &str, most: u32) -> Result<u32, String> {
    number_within(name, value, 1..=most)
}

fn number_within(name: &str, value: &str, range: RangeInclusive<u32>) -> Result<u32, String> {
    let digits_only = value.bytes().all(|byte| byte.is_ascii_digit());
    let (least, most) = range.clone().into_inner();
    match value.parse() {
        Ok(number) if digits_only && range.contains(&number) => Ok(number),
        _ => Err(format!("`{name} {value}`; expected a whole number from {least} to {most}")),
    }
}

/// The bits of an hour list such as `1,2` or `1-8,21-24`.
fn hours_of(list: &str) -> Result<u32, String> {
    let mut bits = 0;
    for part in list.split(',') {
        let (first, last) = part.split_once('-').unwrap_or((part, part));
        let first = whole_number("hours", first, 24).map_err(|_| wrong_hours(list))?;
        let last = whole_number("hours", last, 24).map_err(|_| wrong_hours(list))?;
        if first > last {
            return Err(format!(
                "`hours {list}`: {first}-{last} runs backwards; expected {last}-{first}"
            ));
        }
        for hour in first..=last {
            if bits & hour_bits(&[hour]) != 0 {
                return Err(format!("`hours {list}`: hour {hour} stands twice; expected it once"));
            }
            bits |= hour_bits(&[hour]);
        }
    }
    if bits.count_ones() < 2 {
        return Err(format!("`hours {list}` is one hour; expected at least two"));
    }
    Ok(bits)
}

fn wrong_hours(list: &str) -> String {
    format!("`hours {list}`; expected hours from 1 to 24 without spaces, such as 1,2 or 1-8,21-24")
}

/// Turns a book into its text, or gives the book's refusal.
pub fn to_text(book: &[u8]) -> Result<String, u8> {
    let book = read(book)?;
    let mut text = format!("# {} steps, {} blocks", book.steps.len(), book.blocks.len());
    if !book.links.is_empty() {
        text += &format!(", {} links", book.links.len());
    }
    text += "\n";
    if book.edition != FIRST_EDITION {
        text += &format!("edition {}\n", book.edition);
    }
    if book.hours.len() != USUAL_DAY as usize {
        text += &format!("day {}\n", book.hours.len());
    }
    for record in 1..book.record_count {
        text += &line_of(&book, record);
        text += "\n";
    }
    Ok(text)
}

/// The line of the order or link that stands in a record.
fn line_of(book: &Book, record: usize) -> String {
    let step = book.steps.iter().find(|step| step.record == record).map(step_line);
    let block = || book.blocks.iter().find(|block| block.record == record).map(block_line);
    let link = || book.links.iter().find(|link| link.record == record).map(link_line);
    let line = step.or_else(block).or_else(link);
    line.expect("every record of an accepted book is on a chain")
}

fn step_line(step: &Step) -> String {
    let Step { number, hour, portfolio, price, quantity, .. } = step;
    let side = side_word(step.side);
    format!("step {side} hour {hour} price {price} quantity {quantity} portfolio {portfolio} number {number}")
}

fn block_line(block: &Block) -> String {
    let Block { number, portfolio, price, quantity, .. } = block;
    let side = side_word(block.side);
    let hours = hours_text(&hours_in(block.hours));
    format!("block {side} hours {hours} price {price} quantity {quantity} portfolio {portfolio} number {number}")
}

fn link_line(link: &Link) -> String {
    format!("link child {} parent {}", link.child, link.parent)
}

fn side_word(side: Side) -> &'static str {
    match side {
        Side::Buy => "buy",
        Side::Sell => "sell",
    }
}

/// Hours as a list; three and more in a row become a range.
fn hours_text(hours: &[u32]) -> String {
    let mut runs: Vec<(u32, u32)> = Vec::new();
    for &hour in hours {
        match runs.last_mut() {
            Some((_, last)) if *last + 1 == hour => *last = hour,
            _ => runs.push((hour, hour)),
        }
    }
    let parts: Vec<String> = runs.into_iter().map(run_text).collect();
    parts.join(",")
}

fn run_text((first, last): (u32, u32)) -> String {
    match last - first {
        0 => format!("{first}"),
        1 => format!("{first},{last}"),
        _ => format!("{first}-{last}"),
    }
}
