//! A limit for a pass of the search, by the proved code's guess: what a lawful set loses
//! that is found by leaving out blocks that miss their limits, one after another.

use super::hours::Hours;
use super::orders::{Day, CHANGED};
use super::root::prices_at;
use super::search::{bits_of, Choice};
use super::ByHour;

/// How soon a block is left out that misses its limit by so much.
type Urgency = fn(&Choice, u32) -> u32;

/// By how far it misses, the less it gains, the smaller it is, the larger it is.
const RULES: [Urgency; 4] = [
    |_, miss| miss,
    |choice, _| u32::MAX - choice.left as u32,
    |choice, _| u32::MAX - choice.size(),
    |choice, _| choice.size(),
];

/// The blocks of a day and the tables of its hours.
pub struct Guess<'a, const ROOM: usize> {
    pub choices: &'a [Choice],
    pub hours: &'a Hours<ROOM>,
    pub day: &'a Day,
}

impl<const ROOM: usize> Guess<'_, ROOM> {
    /// The least loss that one of the rules finds.
    pub fn least(&self) -> Option<u64> {
        RULES.into_iter().filter_map(|urgency| self.by(urgency)).min()
    }

    /// What the first lawful set loses, unless a set on the way does not clear.
    fn by(&self, urgency: Urgency) -> Option<u64> {
        let left = |i: &usize| self.choices[*i].left == 0;
        let mut set =
            (0..self.choices.len()).filter(left).fold(self.all(), |set, i| self.without(set, i));
        loop {
            let places = self.places(set)?;
            match self.worst(set, &places, urgency) {
                Some(worst) => set = self.without(set, worst),
                None => return Some(self.loss(set, &places)),
            }
        }
    }

    fn all(&self) -> u32 {
        (0..self.choices.len()).fold(0, |set, i| set | 1 << i)
    }

    /// A set without a block and those below it.
    fn without(&self, set: u32, i: usize) -> u32 {
        set & !(1 << i) & !self.choices[i].below
    }

    /// The place of each hour, where every hour clears there.
    fn places(&self, set: u32) -> Option<ByHour<u16>> {
        let mut places = [0; 24];
        for (i, choice) in self.choices.iter().enumerate() {
            if ((set >> i) & 1 == 1) == choice.sells {
                places.iter_mut().zip(choice.row).for_each(|(place, row)| *place += row);
            }
        }
        let clears = |h: usize| (self.hours.first[h]..=self.hours.last[h]).contains(&places[h]);
        (0..24).all(clears).then_some(places)
    }

    /// The first of the most urgent blocks of a set that miss their limits.
    fn worst(&self, set: u32, places: &ByHour<u16>, urgency: Urgency) -> Option<usize> {
        let prices = prices_at(self.hours, places);
        let mut found = (0, None);
        for i in bits_of(set) {
            let choice = &self.choices[i];
            let miss = choice.miss(&prices);
            let urgent = if miss == 0 { 0 } else { urgency(choice, miss) };
            if found.0 < urgent {
                found = (urgent, Some(i));
            }
        }
        found.1
    }

    fn loss(&self, set: u32, places: &ByHour<u16>) -> u64 {
        let decided = self.choices.iter().enumerate().map(|(i, choice)| {
            if (set >> i) & 1 == 1 {
                choice.taken
            } else {
                choice.left
            }
        });
        let gap = |h: usize| self.hours.gap(h, places[h]);
        let again = u64::from(gap(CHANGED) & self.day.again);
        decided.sum::<u64>() + (0..24).map(|h| u64::from(gap(h))).sum::<u64>() + again
    }
}
