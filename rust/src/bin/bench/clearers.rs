//! The three programs that are timed.

use auction_listing::twin::by_value::clearing;
use auction_listing::twin::in_place::{self, Workspace};

#[derive(Clone, Copy, Debug, PartialEq, Eq)]
pub enum Kind {
    Proved,
    ByValue,
    InPlace,
}

pub const KINDS: [Kind; 3] = [Kind::Proved, Kind::ByValue, Kind::InPlace];

impl Kind {
    pub fn name(self) -> &'static str {
        match self {
            Kind::Proved => "proved",
            Kind::ByValue => "by-value",
            Kind::InPlace => "in-place",
        }
    }

    pub fn named(name: &str) -> Kind {
        let found = KINDS.into_iter().find(|kind| kind.name() == name);
        found.unwrap_or_else(|| panic!("`{name}`; expected proved, by-value or in-place"))
    }
}

/// A program, with what it keeps between two clearings.
pub struct Clearer {
    kind: Kind,
    space: Workspace,
}

impl Clearer {
    pub fn new(kind: Kind) -> Clearer {
        Clearer { kind, space: Workspace::default() }
    }

    /// Clears an accepted book into a result of the right size.
    pub fn clear(&mut self, book: &[u8], result: &mut [u8]) {
        let refusal = match self.kind {
            Kind::Proved => auction::clear_into(book, result).err().map_or(0, |it| it.number()),
            Kind::InPlace => in_place::clear(book, result, &mut self.space),
            Kind::ByValue => match clearing::clear(book, result) {
                Ok(()) => 0,
                Err(refusal) => u32::from(u8::from(refusal)),
            },
        };
        assert_eq!(refusal, 0, "{}: refused", self.kind.name());
    }
}
