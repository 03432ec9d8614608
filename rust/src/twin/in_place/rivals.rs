//! Rivals of a branch: other ways to decide the same blocks that come to the same places, are
//! better, and are lawful with whatever completes the branch. A branch that has one does not
//! lead to the published set.

use super::search::{bits_of, bits_where, Branch, Choice};
use super::ByHour;

/// How many branches are remembered: more pay on few days.
pub const SLOTS: usize = 32_768;

/// With fewer undecided blocks a branch is followed sooner than it is looked up.
const LEAST_UNDECIDED: usize = 3;

/// The set of the last branch at each slot of a table: a hint, which is tried and need not be
/// a rival of what comes there next. At first it is the empty set, which is not tried.
pub struct Rivals<'a> {
    hints: &'a mut [u32],
    marks: Vec<Mark>,
    /// The places of the branch that was looked up last and of those above it, by how many
    /// blocks are decided.
    places: [ByHour<u16>; 32],
}

/// What is asked of a block here alone.
struct Mark {
    /// The blocks of its side and hours with a limit that is no easier to keep.
    outdone_by: u32,
    children: u32,
}

impl<'a> Rivals<'a> {
    pub fn new(choices: &[Choice], hints: &'a mut [u32]) -> Rivals<'a> {
        hints.fill(0);
        let mark = |(i, choice): (usize, &Choice)| Mark {
            outdone_by: bits_where(choices, |other| other.outdoes(choice)),
            children: bits_where(choices, |other| other.parent == 1 << i),
        };
        Rivals {
            hints,
            marks: choices.iter().enumerate().map(mark).collect(),
            places: [[0; 24]; 32],
        }
    }

    /// Whether the hint for a branch is a rival of it; where it is not, the branch is the hint
    /// from here on.
    pub fn drop<const LINKED: bool>(&mut self, choices: &[Choice], branch: &Branch) -> bool {
        if choices.len() - branch.at < LEAST_UNDECIDED {
            return false;
        }
        let slot = slot_of(self.places(choices, branch), branch.at);
        let hint = self.hints[slot];
        let is_dropped = hint != 0 && self.is_rival::<LINKED>(choices, branch, hint);
        if !is_dropped {
            self.hints[slot] = branch.set;
        }
        is_dropped
    }

    /// The places of a branch, by those of the one above it, which was looked up before it: sells
    /// that are taken and buys that are left out move them.
    fn places(&mut self, choices: &[Choice], branch: &Branch) -> &ByHour<u16> {
        if let Some(last) = branch.at.checked_sub(1) {
            let (choice, mut places) = (&choices[last], self.places[last]);
            if ((branch.set >> last) & 1 == 1) == choice.sells {
                places.iter_mut().zip(choice.row).for_each(|(place, row)| *place += row);
            }
            self.places[branch.at] = places;
        }
        &self.places[branch.at]
    }

    /// Whether what a set decides of the decided blocks is a rival of the branch. The set may be
    /// of a branch with more of them.
    fn is_rival<const LINKED: bool>(&self, choices: &[Choice], branch: &Branch, set: u32) -> bool {
        let rival = set & ((1 << branch.at) - 1);
        let (gone, come) = (branch.set & !rival, rival & !branch.set);
        is_better(choices, branch, gone, come)
            && bits_of(come).all(|i| self.marks[i].outdone_by & branch.set != 0)
            && (!LINKED || self.keeps_links(choices, branch.at, rival, gone))
            && has_same_places(choices, gone, come)
    }

    /// Whether no block that the rival takes lacks its parent, and no undecided one would.
    fn keeps_links(&self, choices: &[Choice], at: usize, rival: u32, gone: u32) -> bool {
        bits_of(rival).all(|i| choices[i].parent & !rival == 0)
            && bits_of(gone).all(|i| self.marks[i].children >> at == 0)
    }
}

/// The slot of the branches with these places and so many decided blocks.
fn slot_of(places: &ByHour<u16>, at: usize) -> usize {
    let mixed = |key: u64, &place: &u16| folded(key) * MIXER + u64::from(place);
    folded(places.iter().fold(at as u64, mixed)) as usize % SLOTS
}

/// An odd number below 2 to the power of 24, without a pattern in its bits.
const MIXER: u64 = 10_368_889;

/// A key of 64 bits in 40, so that it can be multiplied again, with its high bits folded in.
fn folded(key: u64) -> u64 {
    (key % (1 << 40) + (key >> 24)) % (1 << 40)
}

/// Whether a set with these differences loses less, or loses the same and comes first by the
/// blocks' numbers.
fn is_better(choices: &[Choice], branch: &Branch, gone: u32, come: u32) -> bool {
    let (mut loss, mut tie) = (branch.loss, branch.tie);
    for i in bits_of(gone) {
        loss = loss + choices[i].left - choices[i].taken;
        tie += choices[i].tie;
    }
    for i in bits_of(come) {
        loss = loss + choices[i].taken - choices[i].left;
        tie -= choices[i].tie;
    }
    (loss, tie) < (branch.loss, branch.tie)
}

/// Whether two sets with these differences have the same place in every hour.
fn has_same_places(choices: &[Choice], gone: u32, come: u32) -> bool {
    let mut moved = [0i32; 24];
    for i in bits_of(gone | come) {
        let choice = &choices[i];
        let up = choice.sells == ((come >> i) & 1 == 1);
        for (moved, row) in moved.iter_mut().zip(choice.row) {
            *moved += if up { i32::from(row) } else { -i32::from(row) };
        }
    }
    moved == [0; 24]
}
