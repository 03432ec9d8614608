//! Why a book, a call or a list is refused.

use crate::header;
use std::fmt;

/// The first cause that holds: 1 to 6, then 9, 10, then 7 or 8; of a list 17. Its number and words
/// are those of `include/auction.h`.
#[derive(Clone, Copy, Debug, PartialEq, Eq, PartialOrd, Ord, Hash)]
#[repr(u32)]
pub enum Refusal {
    Length = header::REFUSED_LENGTH,
    Head = header::REFUSED_HEAD,
    Chain = header::REFUSED_CHAIN,
    Field = header::REFUSED_FIELD,
    Stray = header::REFUSED_STRAY,
    Blocks = header::REFUSED_BLOCKS,
    Result = header::REFUSED_RESULT,
    Call = header::REFUSED_CALL,
    Hours = header::REFUSED_HOURS,
    Link = header::REFUSED_LINK,
    Steps = header::REFUSED_STEPS,
    List = header::REFUSED_LIST,
}

impl Refusal {
    /// All of them, in rising number.
    pub const ALL: [Refusal; 12] = [
        Refusal::Length,
        Refusal::Head,
        Refusal::Chain,
        Refusal::Field,
        Refusal::Stray,
        Refusal::Blocks,
        Refusal::Result,
        Refusal::Call,
        Refusal::Hours,
        Refusal::Link,
        Refusal::Steps,
        Refusal::List,
    ];

    /// 1 to 10, or 17.
    pub fn number(self) -> u32 {
        self as u32
    }

    /// The cause in words.
    pub fn words(self) -> &'static str {
        let mut known = header::REFUSALS.iter();
        known.find(|(number, _)| *number == self.number()).map_or("", |(_, words)| words)
    }

    /// Nothing where a call is done, else its refusal.
    pub(crate) fn unless_done(answer: u32) -> Result<(), Refusal> {
        if answer == header::DONE {
            return Ok(());
        }
        Err(Refusal::numbered(answer).expect("an answer of `include/auction.h`"))
    }

    /// The refusal of a number, where it is one.
    pub(crate) fn numbered(number: u32) -> Option<Refusal> {
        Refusal::ALL.into_iter().find(|refusal| refusal.number() == number)
    }
}

impl fmt::Display for Refusal {
    fn fmt(&self, out: &mut fmt::Formatter<'_>) -> fmt::Result {
        write!(out, "refused with {}: {}", self.number(), self.words())
    }
}

impl std::error::Error for Refusal {}

/// No refusal of the header is missing here, and each has its words.
#[test]
fn the_refusals_are_those_of_the_header() {
    let numbers: Vec<u32> = header::REFUSALS.iter().map(|(number, _)| *number).collect();
    assert_eq!(Refusal::ALL.map(Refusal::number).to_vec(), numbers);
    assert!(Refusal::ALL.iter().all(|refusal| !refusal.words().is_empty()));
}
