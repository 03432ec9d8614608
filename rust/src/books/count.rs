//! How many books a test looks at, and what it meets among them.

/// The least number, or more where the environment variable asks for more: it
/// raises a count and never lowers one.
pub fn count(variable: &str, least: u64) -> u64 {
    raised(std::env::var(variable).ok().as_deref(), least)
}

/// The larger of the least number and the one that is asked for.
pub fn raised(asked: Option<&str>, least: u64) -> u64 {
    let number =
        |asked: &str| asked.parse().unwrap_or_else(|_| panic!("`{asked}`: no number of books"));
    asked.map_or(least, |asked| least.max(number(asked)))
}

/// How often each answer was met: 0 where nothing is refused, else the refusal.
#[derive(Clone, Debug, Default, PartialEq, Eq)]
pub struct Met([u64; 18]);

impl Met {
    /// One more of an answer.
    pub fn add(&mut self, answer: u8) {
        self.0[usize::from(answer)] += 1;
    }

    /// How often an answer was met.
    pub fn count(&self, answer: u8) -> u64 {
        self.0[usize::from(answer)]
    }

    /// All answers together.
    pub fn all(&self) -> u64 {
        self.0.iter().sum()
    }

    /// Tells the counts, and panics where one of these answers was met less often.
    pub fn has_each(&self, answers: impl IntoIterator<Item = u8>, least: u64) {
        println!("done, then refusals 1 to 17: {:?}", self.0);
        for answer in answers {
            assert!(self.0[usize::from(answer)] >= least, "answer {answer}: {:?}", self.0);
        }
    }
}

impl FromIterator<u8> for Met {
    fn from_iter<T: IntoIterator<Item = u8>>(answers: T) -> Met {
        let mut met = Met::default();
        answers.into_iter().for_each(|answer| met.add(answer));
        met
    }
}
