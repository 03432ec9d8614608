//! Lists of steps whose quantities are uncertain (document 02, P14): a builder, random lists,
//! damaged ones, and those at the edges of what a list may be.

use super::dice::Dice;
use super::random::price_levels;

/// The number of a side.
pub const BUY: u32 = 0;
pub const SELL: u32 = 1;

/// The most steps of a list, and the greatest quantity of one.
const MOST_STEPS: usize = 256;
const MOST_QUANTITY: u32 = 99_999;

/// A step to be written. No field is checked: a wrong one makes a refused list.
#[derive(Clone, Copy, Debug, PartialEq, Eq)]
pub struct ListStep {
    pub side: u32,
    pub price: u32,
    pub low: u32,
    pub high: u32,
}

impl ListStep {
    pub fn buy(price: u32, low: u32, high: u32) -> ListStep {
        ListStep { side: BUY, price, low, high }
    }

    pub fn sell(price: u32, low: u32, high: u32) -> ListStep {
        ListStep { side: SELL, price, low, high }
    }

    fn bytes(self) -> impl Iterator<Item = u8> {
        [self.side, self.price, self.low, self.high].into_iter().flat_map(u32::to_be_bytes)
    }
}

/// The bytes of a list.
pub fn list_of(steps: &[ListStep]) -> Vec<u8> {
    steps.iter().flat_map(|step| step.bytes()).collect()
}

/// A random list so small that all choices of its quantities can be tried: at most 5 steps
/// with at most 4 quantities each.
pub fn tiny_list(seed: u64) -> Vec<u8> {
    let mut dice = Dice::new(seed ^ 0x7469_6e79_0000_0000);
    let count = dice.pick(&[0, 1, 2, 2, 3, 3, 4, 4, 5, 5]);
    let from = dice.pick(&[0, 0, 0, 1, 10, MOST_QUANTITY - 5]);
    let figures = |dice: &mut Dice| {
        let low = from + dice.between(0, 2);
        (low, low + dice.between(0, 3))
    };
    list_of(&steps_with(figures, count, &mut dice))
}

/// A random list of up to 256 steps; one in twenty is long.
pub fn random_list(seed: u64) -> Vec<u8> {
    let mut dice = Dice::new(seed ^ 0x6c69_7374_0000_0000);
    let count = match dice.below(60) {
        0 => MOST_STEPS,
        1..=2 => dice.between(61, MOST_STEPS as u32) as usize,
        3..=20 => dice.between(9, 60) as usize,
        _ => dice.below(9),
    };
    list_of(&right_steps(count, &mut dice))
}

/// So many steps of quantities of every size.
fn right_steps(count: usize, dice: &mut Dice) -> Vec<ListStep> {
    let most = dice.pick(&[3, 20, 300, MOST_QUANTITY]);
    steps_with(|dice| figures(most, dice), count, dice)
}

/// A low and a high figure of at most so much: one that is certain, from nothing on, up to the
/// most, or any.
fn figures(most: u32, dice: &mut Dice) -> (u32, u32) {
    let (one, other) = (dice.between(0, most), dice.between(0, most));
    match dice.below(6) {
        0 => (one, one),
        1 => (0, one),
        2 => (one, most),
        3 => (one, most.min(one + 1)),
        _ => (one.min(other), one.max(other)),
    }
}

/// So many steps with these figures. Buys tend to the higher prices and sells to the lower
/// ones, so that the quantities matter; now and then all are of one side.
fn steps_with(
    figures: impl Fn(&mut Dice) -> (u32, u32),
    count: usize,
    dice: &mut Dice,
) -> Vec<ListStep> {
    let mut levels = price_levels(dice);
    if dice.once_in(3) {
        levels = (0..count + 1).map(|_| dice.between(1, 300_000)).collect();
    }
    levels.sort();
    let middle = levels.len() / 2;
    let (lively, one_sided) = (!dice.once_in(3), dice.once_in(20).then(|| dice.between(BUY, SELL)));
    let step = |_| {
        let side = one_sided.unwrap_or_else(|| dice.between(BUY, SELL));
        let price = dice.pick(match side {
            _ if !lively => &levels,
            BUY => &levels[middle..],
            _ => &levels[..=middle],
        });
        let (low, high) = figures(dice);
        ListStep { side, price, low, high }
    };
    (0..count).map(step).collect()
}

/// A kind of full lists for the benchmark.
pub struct ListFamily {
    pub name: &'static str,
    /// The price of the step at a place.
    price: fn(u32, &mut Dice) -> u32,
}

/// The families of the benchmark, by their prices.
pub const LIST_FAMILIES: [ListFamily; 4] = [
    ListFamily { name: "any prices", price: |_, dice| dice.between(1, 300_000) },
    ListFamily { name: "rising prices", price: |at, _| 1_000 * (at + 1) },
    ListFamily { name: "four prices", price: |_, dice| dice.pick(&[2_900, 3_000, 3_001, 5_000]) },
    ListFamily { name: "one price", price: |_, _| 3_000 },
];

impl ListFamily {
    /// As many steps as there may be, none of which may be nothing, so that a book can have
    /// them at any choice of quantities.
    pub fn steps(&self, seed: u64) -> Vec<ListStep> {
        let mut dice = Dice::new(seed ^ 0x6675_6c6c_0000_0000);
        let step = |at| {
            let (side, price) = (dice.between(BUY, SELL), (self.price)(at, &mut dice));
            let (one, other) = (dice.between(1, 999), dice.between(1, 999));
            ListStep { side, price, low: one.min(other), high: one.max(other) }
        };
        (0..MOST_STEPS as u32).map(step).collect()
    }
}

/// A list for a reader: right ones, one or two wrong fields, changed bytes, another length, and
/// plain noise.
pub fn damaged_list(seed: u64) -> Vec<u8> {
    let mut dice = Dice::new(seed ^ 0x6272_6f6b_0000_0000);
    let count = if dice.once_in(100) { MOST_STEPS + dice.below(3) } else { dice.below(6) };
    let steps = right_steps(count, &mut dice);
    match dice.below(8) {
        0 => list_of(&steps),
        1..=2 => list_of(&with_wrong_field(steps, &mut dice)),
        3 => {
            let steps = with_wrong_field(steps, &mut dice);
            list_of(&with_wrong_field(steps, &mut dice))
        }
        4..=5 => bytes_changed(list_of(&steps), &mut dice),
        6 => length_changed(list_of(&steps), &mut dice),
        _ => noise(&mut dice),
    }
}

/// The same steps, one of them wrong in some way.
fn with_wrong_field(mut steps: Vec<ListStep>, dice: &mut Dice) -> Vec<ListStep> {
    if !steps.is_empty() {
        let (at, way) = (dice.below(steps.len()), dice.below(WRONG.len()));
        steps[at] = WRONG[way](steps[at], dice);
    }
    steps
}

fn bytes_changed(mut list: Vec<u8>, dice: &mut Dice) -> Vec<u8> {
    for _ in 0..(dice.between(1, 3) as usize).min(list.len()) {
        let (at, any) = (dice.below(list.len()), dice.bits() as u8);
        list[at] = dice.pick(&[0, 1, 2, 255, any]);
    }
    list
}

fn length_changed(mut list: Vec<u8>, dice: &mut Dice) -> Vec<u8> {
    let length = dice.below(list.len() + 48);
    list.resize(length, dice.bits() as u8);
    list
}

/// Each makes a step wrong in one way.
const WRONG: [fn(ListStep, &mut Dice) -> ListStep; 6] = [
    |step, dice| ListStep { side: dice.pick(&WRONG_SIDES), ..step },
    |step, dice| ListStep { price: dice.pick(&WRONG_PRICES), ..step },
    |step, dice| ListStep { high: dice.pick(&WRONG_QUANTITIES), ..step },
    |step, dice| ListStep { low: dice.pick(&WRONG_QUANTITIES), ..step },
    |step, dice| {
        let wrong = dice.pick(&WRONG_QUANTITIES);
        ListStep { low: wrong, high: wrong, ..step }
    },
    |step, dice| {
        let high = step.high.min(MOST_QUANTITY - 1);
        ListStep { low: dice.pick(&[high + 1, MOST_QUANTITY]), high, ..step }
    },
];

/// Fields out of their range: next to it, and right in their last bytes alone.
const WRONG_SIDES: [u32; 10] =
    [2, 3, 255, 1 << 8, 1 << 8 | SELL, 1 << 16, 1 << 16 | SELL, 1 << 24, 1 << 24 | SELL, u32::MAX];
const WRONG_PRICES: [u32; 6] = [0, 300_001, 1 << 24 | 3_000, 1 << 31 | 1, 1 << 19, u32::MAX];
const WRONG_QUANTITIES: [u32; 6] = [100_000, 100_001, 1 << 17, 1 << 24 | 5, 1 << 31, u32::MAX];

/// Bytes without sense, of any length from 0 to 80.
fn noise(dice: &mut Dice) -> Vec<u8> {
    let most = dice.pick(&[0, 1, 2, 255]);
    let length = dice.below(81);
    (0..length).map(|_| dice.between(0, most) as u8).collect()
}

/// A list at an edge, with its name and whether it is right.
#[derive(Clone, Debug)]
pub struct ListEdge {
    pub name: String,
    pub list: Vec<u8>,
    pub right: bool,
}

impl ListEdge {
    fn of(name: String, steps: &[ListStep], right: bool) -> ListEdge {
        ListEdge { name, list: list_of(steps), right }
    }
}

/// Lists at the edges: every field at its boundaries in every place of short lists and at the
/// ends of a full one, two causes at once, and lists of every length from 0 to 80 and around
/// the greatest.
pub fn list_edges() -> Vec<ListEdge> {
    let mut edges = field_edges();
    edges.extend(two_causes());
    edges.extend(length_edges());
    edges
}

/// So many right steps, always the same.
fn some_steps(count: usize) -> Vec<ListStep> {
    right_steps(count, &mut Dice::new(count as u64))
}

/// Steps with one field or a pair of quantities at a boundary, each with whether it is right.
fn steps_at_boundaries() -> Vec<(ListStep, bool)> {
    let step = ListStep::sell(3_000, 20, 50);
    let sides = [(BUY, true), (SELL, true)].into_iter();
    let sides = sides.chain(WRONG_SIDES.map(|side| (side, false)));
    let mut steps: Vec<(ListStep, bool)> =
        sides.map(|(side, right)| (ListStep { side, ..step }, right)).collect();
    let prices = [1, 2, 299_999, 300_000].map(|price| (price, true)).into_iter();
    let prices = prices.chain(WRONG_PRICES.map(|price| (price, false)));
    steps.extend(prices.map(|(price, right)| (ListStep { price, ..step }, right)));
    let quantities = [0, 1, 49, 50, 65_535, 65_536, 99_998, 99_999, 100_000, 100_001, 1 << 24];
    for (low, high) in quantities.iter().flat_map(|&low| quantities.map(|high| (low, high))) {
        let right = low <= high && high <= MOST_QUANTITY;
        steps.push((ListStep { low, high, ..step }, right));
    }
    steps.extend(WRONG_QUANTITIES.map(|low| (ListStep { low, ..step }, false)));
    steps.extend(WRONG_QUANTITIES.map(|high| (ListStep { high, ..step }, false)));
    steps
}

fn field_edges() -> Vec<ListEdge> {
    let mut edges = Vec::new();
    for (step, right) in steps_at_boundaries() {
        for (count, at) in [(1, 0), (2, 0), (2, 1), (4, 2), (256, 0), (256, 131), (256, 255)] {
            let mut steps = some_steps(count);
            steps[at] = step;
            edges.push(ListEdge::of(format!("{step:?} at {at} of {count}"), &steps, right));
        }
    }
    edges
}

/// Two fields of one step, or of two, in each pair of ways; and one with a wrong length.
fn two_causes() -> Vec<ListEdge> {
    let mut edges = Vec::new();
    let ways = (0..WRONG.len()).flat_map(|one| (0..WRONG.len()).map(move |other| (one, other)));
    for ((one, other), (first, second)) in
        ways.flat_map(|ways| [(0, 0), (0, 2), (2, 0)].map(|places| (ways, places)))
    {
        let mut dice = Dice::new((7 * one + other) as u64);
        let mut steps = some_steps(3);
        for (way, at) in [(one, first), (other, second)] {
            steps[at] = WRONG[way](steps[at], &mut dice);
        }
        let name = format!("causes {one} and {other} at {first} and {second}");
        edges.push(ListEdge::of(name.clone(), &steps, false));
        let mut list = list_of(&steps);
        list.truncate(list.len() - 1 - one);
        edges.push(ListEdge { name: format!("{name}, cut"), list, right: false });
    }
    edges
}

/// Each length with right steps up to it, with its first or its last whole step wrong, and
/// with the same byte all along.
fn length_edges() -> Vec<ListEdge> {
    let mut edges = Vec::new();
    for length in (0..=80)
        .chain([4_064, 4_079, 4_080, 4_081, 4_095, 4_096, 4_097, 4_111, 4_112, 4_128, 8_192])
    {
        let (whole, fits) = (length / 16, length % 16 == 0 && length <= 16 * MOST_STEPS);
        let mut add = |what: String, mut list: Vec<u8>, right: bool| {
            list.truncate(length);
            assert_eq!(list.len(), length);
            edges.push(ListEdge { name: format!("{length} bytes, {what}"), list, right });
        };
        add("right steps".into(), list_of(&some_steps(whole + 1)), fits);
        for byte in [0, 1, 255] {
            add(format!("all {byte}"), vec![byte; length + 1], length == 0);
        }
        for (way, at) in (0..WRONG.len()).flat_map(|way| [(way, 0), (way, whole.max(1) - 1)]) {
            let mut steps = some_steps(whole + 1);
            steps[at] = WRONG[way](steps[at], &mut Dice::new(way as u64));
            add(format!("cause {way} at {at}"), list_of(&steps), length == 0);
        }
    }
    edges
}
