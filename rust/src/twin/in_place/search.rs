//! A pass of the search: the proved code's tree, with one state changed and changed back.

use super::guess::Guess;
use super::hours::Hours;
use super::orders::{Block, Day, Orders, CHANGED};
use super::rivals::Rivals;
use super::root::{prices_at, Mask};
use super::shift;
use super::ByHour;
use crate::twin::count;

/// The published set with the place and the price of each hour.
#[derive(Clone, Copy, Default)]
pub struct Best {
    pub set: u32,
    pub places: ByHour<u16>,
    pub prices: ByHour<u32>,
}

/// What a pass finds.
pub enum Pass {
    Nothing,
    /// The published set.
    Found(Best),
    /// Nothing is known: the fuel was spent before all branches were looked at.
    Spent,
}

/// How the published set was found.
#[derive(Clone, Copy, Debug, Default, PartialEq, Eq)]
pub struct Settled {
    /// By heavy passes.
    pub heavily: bool,
    /// After another set that loses the same, which comes later by the blocks' numbers.
    pub by_tie: bool,
    /// How many branches were dropped for a rival.
    pub rivalled: u64,
}

/// The first blocks decided one way: how many, those that are taken, what these decisions lose,
/// and what they add to the tie.
#[derive(Clone, Copy)]
pub struct Branch {
    pub at: usize,
    pub set: u32,
    pub loss: u64,
    pub tie: u32,
}

/// A block as the search needs it.
#[derive(Clone)]
pub struct Choice {
    pub sells: bool,
    limit: u32,
    /// What is lost by taking it and by leaving it out; one of the two is 0.
    pub taken: u64,
    pub left: u64,
    /// Its quantity at its hours.
    pub row: ByHour<u16>,
    mask: Mask,
    /// The blocks that have an hour in common with it, itself among them.
    pub near: u32,
    /// Its place in `Search::by_loss`.
    rank: usize,
    /// The bits of the blocks without which it is not taken: its parent, and the twin that
    /// is taken next before it, of those that stand before it.
    pub needs: u32,
    /// The bit of the twin that is taken next after it, of those that stand before it.
    pub behind: u32,
    /// The blocks that are not taken without it: its children, theirs and so on.
    pub below: u32,
    /// The bit of its parent.
    pub parent: u32,
    /// What it adds to the tie of a set that leaves it out: of sets that lose the same the one
    /// with the least tie is published, which holds the lowest number in which two differ.
    pub tie: u32,
}

/// What is known of a branch.
#[derive(Clone, Copy)]
struct State {
    /// The places that can be reached.
    least: ByHour<u16>,
    most: ByHour<u16>,
    /// How many blocks of `Search::by_loss` are fixed by their losses or decided.
    fixed: usize,
    /// The undecided blocks that no completion takes, found by their limits and by those
    /// of the blocks above them.
    out: u32,
    /// What these would gain: every completion loses it.
    owed: u64,
    /// The blocks below those that were left out; out from the next test on.
    orphans: u32,
    /// The blocks whose best prices may have changed since the last test.
    risk: u32,
    /// Whether places have changed since the last test.
    changed: bool,
    /// The least gaps, where nothing has changed.
    gaps: u64,
}

/// The search of a day, `LINKED` or without links, with prices that give way, `SHIFTED`, or
/// without.
pub struct Search<'a, const ROOM: usize, const LINKED: bool, const SHIFTED: bool> {
    hours: &'a Hours<ROOM>,
    day: Day,
    /// The blocks in the order in which they are decided.
    choices: Vec<Choice>,
    /// Their places in falling order of loss.
    by_loss: Vec<usize>,
    sells: u32,
    all: u32,
    /// Sets are sought that lose less than the limit, or as much with a smaller tie.
    limit: u64,
    tie: u32,
    /// How often a block may still be decided a second way.
    fuel: u64,
    /// Where branches are looked up in heavy passes.
    rivals: Option<Rivals<'a>>,
    found: bool,
    best: Best,
    settled: Settled,
    state: State,
}

impl<'a, const ROOM: usize, const LINKED: bool, const SHIFTED: bool>
    Search<'a, ROOM, LINKED, SHIFTED>
{
    pub fn new(hours: &'a Hours<ROOM>, day: Day, choices: Vec<Choice>, fuel: u64) -> Self {
        let mut choices = choices;
        let mut by_loss: Vec<usize> = (0..choices.len()).collect();
        by_loss.sort_by_key(|&i| std::cmp::Reverse(choices[i].taken + choices[i].left));
        for (rank, &i) in by_loss.iter().enumerate() {
            choices[i].rank = rank;
        }
        Search {
            hours,
            day,
            sells: bits_where(&choices, |choice| choice.sells),
            all: bits_where(&choices, |_| true),
            choices,
            by_loss,
            limit: 0,
            tie: 0,
            fuel,
            rivals: None,
            found: false,
            best: Best::default(),
            settled: Settled::default(),
            state: State::before(hours.most),
        }
    }

    /// From here on as much fuel as is needed, and branches are dropped that have a rival.
    pub fn go_on_with_rivals(&mut self, hints: &'a mut [u32]) {
        self.fuel = u64::MAX;
        self.rivals = Some(Rivals::new(&self.choices, hints));
        self.settled.heavily = true;
    }

    /// How the last pass has found its set.
    pub fn settled(&self) -> Settled {
        self.settled
    }

    /// All sets that lose less than a limit, but for the branches that are dropped.
    pub fn pass(&mut self, limit: u64) -> Pass {
        (self.limit, self.tie) = (limit, 0);
        self.found = false;
        self.state = State::before(self.hours.most);
        self.explore(Branch { at: 0, set: 0, loss: 0, tie: 0 });
        match (self.fuel, self.found) {
            (0, _) => Pass::Spent,
            (_, true) => Pass::Found(self.best),
            (_, false) => Pass::Nothing,
        }
    }

    /// A guess of what the published set loses.
    pub fn guess(&self) -> Option<u64> {
        Guess { choices: &self.choices, hours: self.hours, day: &self.day }.least()
    }

    /// Every way to decide the blocks that a branch leaves, each first taken and then left out.
    fn explore(&mut self, branch: Branch) {
        count::node();
        if !self.is_open(&branch) {
            count::cut();
            return;
        }
        if branch.at == self.choices.len() {
            return self.decide(&branch);
        }
        if !self.is_rivalled(&branch) {
            self.decide_next(&branch);
        }
    }

    /// The next block decided both ways, or one way alone where the other is not lawful or a
    /// twin goes before. Where the fuel is spent a second way is not gone.
    fn decide_next(&mut self, branch: &Branch) {
        let &Branch { at, set, .. } = branch;
        let Choice { needs, behind, .. } = self.choices[at];
        let may_take = needs & !set == 0 && !self.state.is_out(at);
        let may_leave = !may_take || behind & set == 0;
        let here = self.state;
        if may_take {
            self.child(branch, true);
            self.state = here;
        }
        if may_take && may_leave {
            if self.fuel == 0 {
                return;
            }
            self.fuel -= 1;
        }
        if may_leave {
            self.child(branch, false);
        }
    }

    /// The branch in which the next block is taken or left out. A node that is cut by what it
    /// loses and owes is counted here and not called.
    fn child(&mut self, branch: &Branch, take: bool) {
        let at = branch.at;
        let choice = &self.choices[at];
        let next = branch.decided(choice, take);
        let is_out = self.state.is_out(at);
        if is_out {
            // From here on it is part of the loss.
            self.state.owed -= choice.left;
        }
        if self.limit_for(next.tie) <= next.loss + self.state.owed {
            count::node();
            count::cut();
            return;
        }
        if take {
            self.state.risk |= 1 << at;
        } else if LINKED {
            self.state.orphans |= choice.below;
        }
        // A block that is fixed, or out, is decided as it was before.
        if choice.rank >= self.state.fixed && !is_out {
            self.state.decide(choice, take, self.sells);
        }
        self.explore(next);
    }

    /// What the sets of a branch may not lose: the limit, or one more where they may have a
    /// smaller tie than the best set.
    fn limit_for(&self, tie: u32) -> u64 {
        self.limit + u64::from(tie < self.tie)
    }

    /// Whether the branch is dropped for a rival, in heavy passes.
    fn is_rivalled(&mut self, branch: &Branch) -> bool {
        let Some(rivals) = &mut self.rivals else { return false };
        let is_rivalled = rivals.drop::<LINKED>(&self.choices, branch);
        self.settled.rivalled += u64::from(is_rivalled);
        is_rivalled
    }

    /// Whether a completion may be lawful and lose less than the limit, which is more than the
    /// branch loses and owes.
    fn is_open(&mut self, branch: &Branch) -> bool {
        let &Branch { at, set, loss, tie } = branch;
        let limit = self.limit_for(tie);
        let charged = loss + self.state.owed;
        if self.is_forced(at, set, charged, limit) {
            return true;
        }
        self.fix(at, charged, limit);
        self.passes(set, loss, limit) && {
            self.rule_out(at);
            limit > loss + self.state.gaps + self.state.owed
        }
    }

    fn undecided(&self, at: usize) -> u32 {
        (u32::MAX.checked_shl(at as u32).unwrap_or(0)) & self.all
    }

    /// Whether the other decision of the last block would have lost the limit: then what
    /// can be reached is as it was before that block, and the node passes as it is.
    fn is_forced(&self, at: usize, set: u32, charged: u64, limit: u64) -> bool {
        let Some(last) = at.checked_sub(1) else { return false };
        let Choice { taken, left, .. } = self.choices[last];
        limit <= charged + if (set >> last) & 1 == 1 { left } else { taken }
    }

    /// The test of the places in reach: every hour can balance, the least gaps do not
    /// come to the limit, and each taken block could keep its own.
    fn passes(&mut self, set: u32, loss: u64, limit: u64) -> bool {
        if self.state.changed {
            let Some(gaps) = self.state.least_gaps(self.hours, &self.day) else { return false };
            self.state.gaps = gaps;
            self.state.changed = false;
        }
        limit > loss + self.state.gaps && self.could_keep(set)
    }

    /// Decides the undecided blocks whose other decision would lose the limit; those that are
    /// out are decided already.
    fn fix(&mut self, at: usize, charged: u64, limit: u64) {
        while let Some(&i) = self.by_loss.get(self.state.fixed) {
            let choice = &self.choices[i];
            if charged + choice.taken + choice.left < limit {
                return;
            }
            if at <= i && !self.state.is_out(i) {
                self.state.decide(choice, choice.taken == 0, self.sells);
            }
            self.state.fixed += 1;
        }
    }

    /// Whether each taken block that is at risk could keep its limit: a sell at the
    /// prices of the lowest places in reach, a buy at those of the highest.
    fn could_keep(&mut self, set: u32) -> bool {
        let risk = set & self.state.risk;
        let keeps = self.first_missing(risk & self.sells, true).is_none()
            && self.first_missing(risk & !self.sells, false).is_none();
        self.state.risk &= !set;
        keeps
    }

    /// The first of the blocks of one side that misses its limit at the best prices in
    /// reach.
    fn first_missing(&self, blocks: u32, sells: bool) -> Option<usize> {
        if blocks == 0 {
            return None;
        }
        let prices = self.best_prices(sells);
        bits_of(blocks).find(|&i| self.choices[i].misses(&prices))
    }

    /// The prices that are best for a side: a sell's at the lowest places in reach, a
    /// buy's at the highest; where prices give way, H there and L.
    fn best_prices(&self, sells: bool) -> ByHour<u32> {
        let (state, hours) = (&self.state, self.hours);
        let from = |h: usize| state.least[h].max(hours.first[h]);
        let to = |h: usize| state.most[h].min(hours.last[h]);
        if SHIFTED && sells {
            return std::array::from_fn(|h| hours.high(h, from(h)));
        }
        if SHIFTED {
            return std::array::from_fn(|h| hours.low(h, to(h)));
        }
        prices_at(hours, &std::array::from_fn(|h| if sells { from(h) } else { to(h) }))
    }

    /// Leaves out the undecided blocks that miss their limits at the best prices in reach,
    /// and those below them or below blocks that were left out.
    fn rule_out(&mut self, at: usize) {
        let undecided = self.undecided(at);
        let tested = self.state.risk & undecided & !self.state.out;
        let mut missing = 0;
        for sells in [true, false] {
            let of_side = tested & if sells { self.sells } else { !self.sells };
            if of_side != 0 {
                let prices = self.best_prices(sells);
                missing |= bits_of(of_side)
                    .filter(|&i| self.choices[i].misses(&prices))
                    .map(|i| 1 << i)
                    .sum::<u32>();
            }
        }
        self.state.risk = 0;
        if LINKED {
            let below = |found, i: usize| found | self.choices[i].below;
            let gone = bits_of(missing).fold(self.state.orphans, below);
            missing |= gone & undecided & !self.state.out;
            self.state.orphans = 0;
        }
        for i in bits_of(missing) {
            let choice = &self.choices[i];
            self.state.owed += choice.left;
            // One that is fixed is left out already, or it must be taken, and the branch has
            // no completion.
            if choice.rank >= self.state.fixed {
                self.state.decide(choice, false, self.sells);
            }
        }
        self.state.out |= missing;
    }

    /// All blocks are decided: the set is the best so far where it passes as well.
    fn decide(&mut self, branch: &Branch) {
        let &Branch { set, loss, tie, .. } = branch;
        if !self.passes(set, loss, self.limit_for(tie)) {
            return;
        }
        let places = self.state.least;
        let Some(prices) = self.kept_prices(set, &places) else { return };
        let total = loss + self.state.gaps;
        self.settled.by_tie = self.found && total == self.limit;
        (self.limit, self.tie) = (total, tie);
        self.found = true;
        self.best = Best { set, places, prices };
    }

    /// The prices of a set at its places, where its blocks keep their limits at them. Those
    /// that do not give way are what the set has passed at.
    fn kept_prices(&self, set: u32, places: &ByHour<u16>) -> Option<ByHour<u32>> {
        if !SHIFTED {
            return Some(prices_at(self.hours, places));
        }
        let miss = |blocks: u32, prices: &ByHour<u32>| {
            bits_of(blocks).any(|i| self.choices[i].misses(prices))
        };
        let (sells, buys) = (set & self.sells, set & !self.sells);
        shift::kept_prices(self.hours, places, |it| miss(sells, it), |it| miss(buys, it))
    }
}

impl Choice {
    /// Whether the block misses its limit at prices.
    fn misses(&self, prices: &ByHour<u32>) -> bool {
        self.miss(prices) != 0
    }

    /// By how much.
    pub fn miss(&self, prices: &ByHour<u32>) -> u32 {
        let sum = self.mask.sum(prices);
        if self.sells {
            self.limit.saturating_sub(sum)
        } else {
            sum.saturating_sub(self.limit)
        }
    }

    /// Whether it keeps its limit only where another one of its side and hours does.
    pub fn outdoes(&self, other: &Choice) -> bool {
        let is_tight =
            if other.sells { self.limit >= other.limit } else { self.limit <= other.limit };
        (self.sells, &self.mask.hours) == (other.sells, &other.mask.hours) && is_tight
    }

    /// What it trades in all its hours.
    pub fn size(&self) -> u32 {
        self.row.into_iter().map(u32::from).sum()
    }
}

impl Branch {
    /// The branch with its next block decided.
    fn decided(&self, choice: &Choice, take: bool) -> Branch {
        let &Branch { at, set, loss, tie } = self;
        Branch {
            at: at + 1,
            set: set | u32::from(take) << at,
            loss: loss + if take { choice.taken } else { choice.left },
            tie: tie + if take { 0 } else { choice.tie },
        }
    }
}

/// The numbers of the bits that are set.
pub fn bits_of(bits: u32) -> impl Iterator<Item = usize> {
    let mut rest = bits;
    std::iter::from_fn(move || {
        let bit = (rest != 0).then(|| rest.trailing_zeros() as usize);
        rest &= rest.wrapping_sub(1);
        bit
    })
}

impl State {
    /// No block is decided, and the places reach up to the most of each hour.
    fn before(most: ByHour<u16>) -> State {
        State {
            least: [0; 24],
            most,
            fixed: 0,
            out: 0,
            owed: 0,
            orphans: 0,
            risk: u32::MAX,
            changed: true,
            gaps: 0,
        }
    }

    fn is_out(&self, i: usize) -> bool {
        (self.out >> i) & 1 == 1
    }

    /// Takes a block or leaves it out. A sell that is taken and a buy that is left out
    /// raise the least places, the others lower the most.
    fn decide(&mut self, choice: &Choice, take: bool, sells: u32) {
        let up = take == choice.sells;
        let places = if up { &mut self.least } else { &mut self.most };
        for (place, row) in places.iter_mut().zip(choice.row) {
            *place = if up { *place + row } else { *place - row };
        }
        self.risk |= choice.near & if up { sells } else { !sells };
        self.changed = true;
    }

    /// The sum of the least gaps over the places in reach, if each hour has one.
    fn least_gaps<const ROOM: usize>(&self, hours: &Hours<ROOM>, day: &Day) -> Option<u64> {
        let mut balances = true;
        let places: ByHour<u16> = std::array::from_fn(|h| {
            let from = self.least[h].max(hours.first[h]);
            let to = self.most[h].min(hours.last[h]);
            balances &= from <= to;
            hours.turn[h].max(from).min(to)
        });
        let gap = |h: usize| hours.gap(h, places[h]);
        let again = || u64::from(gap(CHANGED) & day.again);
        balances.then(|| (0..24).map(|h| u64::from(gap(h))).sum::<u64>() + again())
    }
}

/// The blocks of a day by number, with what they lose at the root prices.
pub fn choices_of(orders: &Orders, root: &ByHour<u32>) -> Vec<Choice> {
    let choice = |(i, block): (usize, &Block)| {
        let mask = Mask::of(block, &orders.day);
        let sum = mask.sum(root);
        let over = u64::from(block.quantity * sum.saturating_sub(block.limit));
        let under = u64::from(block.quantity * block.limit.saturating_sub(sum));
        let (taken, left) = if block.sells { (under, over) } else { (over, under) };
        let near = |other: &Block| other.hours & block.hours != 0;
        let row = mask.hours.map(|mask| mask as u16 & block.quantity as u16);
        Choice {
            sells: block.sells,
            limit: block.limit,
            taken,
            left,
            row,
            mask,
            near: bits_where(&orders.blocks, near),
            rank: 0,
            needs: block.parent,
            behind: 0,
            below: 0,
            parent: block.parent,
            tie: 1 << (31 - i),
        }
    };
    let mut choices: Vec<Choice> = orders.blocks.iter().enumerate().map(choice).collect();
    let parents = orders.blocks.iter().fold(0, |found, block| found | block.parent);
    for (i, choice) in choices.iter_mut().enumerate() {
        let (ahead, behind) = twins_of(&orders.blocks, parents, i);
        choice.needs |= ahead;
        choice.behind = behind;
    }
    // A block stands behind its parent, so that those below it are known before it is asked.
    for (i, block) in orders.blocks.iter().enumerate().rev().filter(|(_, it)| it.parent != 0) {
        choices[block.parent.trailing_zeros() as usize].below |= choices[i].below | 1 << i;
    }
    choices
}

/// The next twin that is taken before block i and the next one after it, as bits: a
/// sell with a lower limit goes first, a buy with a higher one, of equals the earlier.
/// Of equals it is the last ahead and the first behind, as in the proved code. The one
/// that is taken first must be able to stand in for the other, whatever their links.
fn twins_of(blocks: &[Block], parents: u32, i: usize) -> (u32, u32) {
    let block = &blocks[i];
    let is_twin = |other: &Block| {
        (other.sells, other.hours, other.quantity) == (block.sells, block.hours, block.quantity)
    };
    let stands_in = |one: usize, other: usize| {
        let parent = blocks[one].parent;
        (parent == 0 || parent == blocks[other].parent) && (parents >> other) & 1 == 0
    };
    let turn = |j: usize| {
        let limit = i64::from(blocks[j].limit);
        if block.sells {
            limit
        } else {
            -limit
        }
    };
    let (mut ahead, mut behind) = (None, None);
    for j in (0..i).filter(|&j| is_twin(&blocks[j])) {
        if turn(j) <= turn(i) {
            if stands_in(j, i) && ahead.is_none_or(|found| turn(found) <= turn(j)) {
                ahead = Some(j);
            }
        } else if stands_in(i, j) && behind.is_none_or(|found| turn(j) < turn(found)) {
            behind = Some(j);
        }
    }
    let bit = |twin: Option<usize>| twin.map_or(0, |j| 1 << j);
    (bit(ahead), bit(behind))
}

/// A bit for each block that is wanted.
pub fn bits_where<T>(blocks: &[T], wanted: impl Fn(&T) -> bool) -> u32 {
    (0..blocks.len()).filter(|&i| wanted(&blocks[i])).map(|i| 1 << i).sum()
}
