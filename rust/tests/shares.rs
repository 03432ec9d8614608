//! Document 02, P5: the sharing rule of this package by its laws, by examples and by another
//! way, and beside the rule of document 01, which it replaces.
//!
//! The environment variable BOOKS raises the counts.

use auction_listing::books::{
    count, fair_shares as fair_shares_day, shared_book_on, small_book_on, Dice, DAYS_AND_EDITIONS,
    FAIR_SHARES_ROWS,
};
use auction_listing::paper::{
    best_outcome, fair_shares, outcome, read, result_bytes, Book, Outcome, Published, Side, Step,
};

/// Sell steps of an hour with numbers and quantities, at one price.
fn group(numbered: &[(u32, u32)]) -> Vec<Step> {
    let step = |&(number, quantity): &(u32, u32)| Step {
        record: number as usize,
        number,
        side: Side::Sell,
        hour: 1,
        portfolio: 1,
        price: 3_000,
        quantity,
    };
    numbered.iter().map(step).collect()
}

/// Steps of these quantities, numbered from 1 on.
fn group_of(quantities: &[u32]) -> Vec<Step> {
    group(&(1..).zip(quantities.iter().copied()).collect::<Vec<_>>())
}

fn total(steps: &[Step]) -> i64 {
    steps.iter().map(|step| i64::from(step.quantity)).sum()
}

#[test]
fn examples() {
    let shared = |quantities: &[u32], amount| fair_shares(&group_of(quantities), amount);
    // The leftovers go to the largest remainders, 3 and 3, not to the lowest number.
    assert_eq!(shared(&[2, 1, 1], 3), [1, 1, 1]);
    // Of equal remainders to the lower number.
    assert_eq!(shared(&[1, 3], 2), [1, 1]);
    assert_eq!(shared(&[3, 1], 2), [2, 0]);
    assert_eq!(shared(&[60, 60], 100), [50, 50]);
    assert_eq!(shared(&[7, 5, 5, 3], 10), [4, 3, 2, 1]);
    assert_eq!(shared(&[1, 1, 1], 2), [1, 1, 0]);
    assert_eq!(shared(&[1, 99_999], 1), [0, 1]);
    assert_eq!(shared(&[99_999, 99_999], 99_999), [50_000, 49_999]);
}

/// Nobody gets anything where the total is 0.
#[test]
fn a_total_of_0() {
    assert_eq!(fair_shares(&[], 0), []);
    assert_eq!(fair_shares(&group_of(&[0, 0, 0]), 0), [0, 0, 0]);
    assert_eq!(fair_shares(&group_of(&[0, 0, 0]), 2), [0, 0, 0]);
}

/// A day with groups of both sides at the price, as figures written down by hand.
#[test]
fn the_day_of_fair_shares() {
    let book = fair_shares_day().book();
    let accepted = read(&book).unwrap();
    let best = best_outcome(&accepted, fair_shares);
    let published = Published::from_bytes(&result_bytes(&accepted, &best));
    assert_eq!(published.rows, FAIR_SHARES_ROWS);
    assert_eq!(
        (published.prices[..3].to_vec(), &best.traded[..3]),
        (vec![4_000, 5_000, 3_000], &[3, 10, 2][..])
    );
    assert_eq!(published.welfare, 4_000);
}

/// The shares as the paper words them, without ranks: a step gets one more where fewer than
/// the leftover tenths go to steps ahead of it.
fn shares_by_counting(steps: &[Step], amount: i64) -> Vec<i64> {
    let total = total(steps).max(1);
    let product = |step: &Step| i64::from(step.quantity) * amount;
    let leftover = amount - steps.iter().map(|step| product(step) / total).sum::<i64>();
    let is_ahead = |one: &Step, other: &Step| {
        let (one_has, other_has) = (product(one) % total, product(other) % total);
        one_has > other_has || (one_has == other_has && one.number < other.number)
    };
    let share = |step: &Step| {
        let ahead = steps.iter().filter(|other| is_ahead(other, step)).count() as i64;
        product(step) / total + i64::from(ahead < leftover)
    };
    steps.iter().map(share).collect()
}

/// The laws of the rule on one group: each share at most the step's own, all of them the
/// amount, each within one of its part; no less for more, and the same by another way.
fn check_laws(steps: &[Step], amount: i64) {
    let shares = fair_shares(steps, amount);
    assert_eq!(shares.iter().sum::<i64>(), amount, "{steps:?}");
    let total = total(steps);
    for (step, &share) in steps.iter().zip(&shares) {
        let own = i64::from(step.quantity);
        assert!((0..=own).contains(&share), "{amount}: {share} of {step:?}");
        let part = share * total - own * amount;
        assert!(-total < part && part < total, "{amount}: {share} of {step:?}");
    }
    for (one, &has) in steps.iter().zip(&shares) {
        for (other, &gets) in steps.iter().zip(&shares) {
            let more = one.quantity > other.quantity;
            let earlier = one.quantity == other.quantity && one.number < other.number;
            assert!(!more || has >= gets, "{amount}: {one:?}, {other:?}");
            assert!(!earlier || (gets..=gets + 1).contains(&has), "{amount}: {one:?}, {other:?}");
        }
    }
    assert_eq!(shares, shares_by_counting(steps, amount), "{steps:?}, {amount}");
}

/// Every group of up to four steps of 1 to 5, with every amount.
#[test]
fn laws_of_all_small_groups() {
    let mut groups: Vec<Vec<u32>> = vec![vec![]];
    for from in [0, 1, 6, 31] {
        let longer = groups[from..].to_vec().into_iter();
        let longer =
            longer.flat_map(|group| (1..=5).map(move |next| [&group[..], &[next]].concat()));
        groups.extend(longer.collect::<Vec<_>>());
    }
    assert_eq!(groups.len(), 1 + 5 + 25 + 125 + 625);
    for quantities in groups.iter().skip(1) {
        let steps = group_of(quantities);
        for amount in 0..=total(&steps) {
            check_laws(&steps, amount);
        }
    }
}

/// A random group; its numbers rise with gaps.
fn random_group(dice: &mut Dice) -> Vec<Step> {
    let most = dice.pick(&[2, 9, 60]);
    let size = dice.between(1, most);
    let largest = dice.pick(&[1, 3, 100, 99_999]);
    let mut number = 0;
    let mut numbered = || {
        number += dice.between(1, 9);
        (number, dice.between(1, largest))
    };
    group(&(0..size).map(|_| numbered()).collect::<Vec<_>>())
}

/// Of 0 to all of what the steps hold, the ends among them.
fn random_amount(steps: &[Step], dice: &mut Dice) -> i64 {
    let total = total(steps);
    match dice.below(8) {
        0 => 0,
        1 => total,
        2 => 1,
        3 => total - 1,
        _ => (dice.bits() % (total as u64 + 1)) as i64,
    }
}

#[test]
fn laws_of_random_groups() {
    let mut shared = 0;
    for seed in 0..count("BOOKS", 4_000) {
        let mut dice = Dice::new(seed);
        let steps = random_group(&mut dice);
        let amount = random_amount(&steps, &mut dice);
        check_laws(&steps, amount);
        shared += u64::from(0 < amount && amount < total(&steps));
    }
    assert!(shared >= 1_000, "{shared}");
}

/// The widest group that a book can hold: no product is too large.
#[test]
fn the_widest_group() {
    let steps = group_of(&[99_999; 2_047]);
    let all = total(&steps);
    for amount in [0, 1, all / 2, all - 1, all] {
        let shares = fair_shares(&steps, amount);
        assert_eq!(shares.iter().sum::<i64>(), amount);
        assert!(shares.windows(2).all(|pair| pair[0] == pair[1] || pair[0] == pair[1] + 1));
    }
}

/// Who stands where does not matter, numbers do; and a step of 0 gets nothing and changes
/// nobody's share.
#[test]
fn order_and_steps_of_0() {
    for seed in 0..count("BOOKS", 2_000) {
        let mut dice = Dice::new(seed);
        let steps = random_group(&mut dice);
        let amount = random_amount(&steps, &mut dice);
        let shares = fair_shares(&steps, amount);
        let of_number = |number: u32| {
            shares[steps.iter().position(|step| step.number == number).expect("its number")]
        };
        let mut mixed = steps.clone();
        // Between the numbers there is room for one that is a gap or the same as another's.
        mixed.extend(group(&[(dice.between(1, 500), 0), (501, 0)]));
        dice.shuffle(&mut mixed);
        for (step, share) in mixed.iter().zip(fair_shares(&mixed, amount)) {
            let expected = if step.quantity == 0 { 0 } else { of_number(step.number) };
            assert_eq!(share, expected, "seed {seed}: {step:?}");
        }
    }
}

/// The rule of document 01, which document 02 replaces: "in rising order number, each filled
/// before the next".
fn filled_in_turn(steps: &[Step], amount: i64) -> Vec<i64> {
    let mut left = amount;
    let fill = |step: &Step| {
        let given = i64::from(step.quantity).min(left);
        left -= given;
        given
    };
    steps.iter().map(fill).collect()
}

/// The quantities of the steps at the prices of an outcome, a list for each hour and side.
fn at_prices(book: &Book, outcome: &Outcome) -> Vec<Vec<i64>> {
    let of = |hour: u32, side: Side| {
        let price = outcome.prices[hour as usize - 1];
        let steps = book.steps.iter().zip(&outcome.executed);
        let at_price =
            steps.filter(|(step, _)| step.hour == hour && step.side == side && step.price == price);
        at_price.map(|(_, &quantity)| quantity).collect()
    };
    (1..=24).flat_map(|hour| [of(hour, Side::Buy), of(hour, Side::Sell)]).collect()
}

/// "Prices, taken blocks and welfare do not move", nor traded quantities, nor what a group
/// gets in all: the best of all sets under either rule, on random books.
#[test]
fn the_rule_of_document_01_gives_the_same_prices_blocks_and_welfare() {
    let (mut books, mut moved) = (0, 0);
    for (day, edition) in DAYS_AND_EDITIONS {
        for seed in 0..count("BOOKS", 120) {
            let of_seed = format!("on({day}, {edition}, {seed})");
            let shared = shared_book_on(day, edition, seed);
            let small = small_book_on(day, edition, seed);
            for (name, book) in [("shared_book", shared), ("small_book", small)] {
                let book = read(&book).expect("accepted");
                let new = best_outcome(&book, fair_shares);
                let old = best_outcome(&book, filled_in_turn);
                let name = format!("{name}_{of_seed}");
                assert_eq!((new.set, new.prices), (old.set, old.prices), "{name}");
                assert_eq!((new.welfare, new.traded), (old.welfare, old.traded), "{name}");
                let groups = at_prices(&book, &new).into_iter().zip(at_prices(&book, &old));
                for (new, old) in groups {
                    assert_eq!(new.iter().sum::<i64>(), old.iter().sum::<i64>(), "{name}");
                }
                books += 1;
                moved += u64::from(new.executed != old.executed);
            }
        }
    }
    println!("books: {books}, of which rows move in {moved}");
    assert!(moved >= books / 4, "rows move in {moved} of {books}");
}

/// Rows of steps that are not at the price do not move.
#[test]
fn rows_away_from_the_price_stay() {
    for seed in 0..count("BOOKS", 300) {
        let (day, edition) = DAYS_AND_EDITIONS[seed as usize % DAYS_AND_EDITIONS.len()];
        let book = read(&shared_book_on(day, edition, seed)).expect("accepted");
        let (new, old) = (best_outcome(&book, fair_shares), best_outcome(&book, filled_in_turn));
        let rows = new.executed.iter().zip(&old.executed);
        for (step, (new_row, old_row)) in book.steps.iter().zip(rows) {
            let at_price = step.price == new.prices[step.hour as usize - 1];
            assert!(at_price || new_row == old_row, "shared_book_on({day}, {edition}, {seed})");
        }
    }
}

/// What the books with groups at one price have: how many are worth comparing on.
#[derive(Debug, Default)]
struct Variety {
    books: u32,
    blocks_taken: u32,
    sells_shared: u32,
    buys_shared: u32,
    both_sides_at_the_price: u32,
    leftovers: u32,
    equal_remainders: u32,
    no_remainders: u32,
    groups_of_100: u32,
    shared_in_hour_3: u32,
}

impl Variety {
    fn look_at(&mut self, book: &Book, outcome: &Outcome) {
        self.books += 1;
        self.blocks_taken += u32::from(outcome.set != 0);
        for &hour in &book.hours {
            let price = outcome.prices[hour as usize - 1];
            let group = |side: Side| -> Vec<(Step, i64)> {
                let steps = book.steps.iter().copied().zip(outcome.executed.iter().copied());
                steps
                    .filter(|(it, _)| (it.hour, it.side, it.price) == (hour, side, price))
                    .collect()
            };
            let (buys, sells) = (group(Side::Buy), group(Side::Sell));
            self.both_sides_at_the_price += u32::from(!buys.is_empty() && !sells.is_empty());
            self.buys_shared += u32::from(self.look_at_group(hour, &buys));
            self.sells_shared += u32::from(self.look_at_group(hour, &sells));
        }
    }

    /// Whether the steps of the group get a part of what they hold.
    fn look_at_group(&mut self, hour: u32, group: &[(Step, i64)]) -> bool {
        let total: i64 = group.iter().map(|(step, _)| i64::from(step.quantity)).sum();
        let amount: i64 = group.iter().map(|(_, share)| share).sum();
        if amount == 0 || amount == total {
            return false;
        }
        let remainder = |step: &Step| i64::from(step.quantity) * amount % total;
        let with_more =
            group.iter().filter(|(step, share)| share * total > i64::from(step.quantity) * amount);
        let with_more: Vec<&(Step, i64)> = with_more.collect();
        self.leftovers += u32::from(!with_more.is_empty());
        self.no_remainders += u32::from(with_more.is_empty());
        let last = with_more.iter().map(|(step, _)| remainder(step)).min();
        // Some with that remainder have one more, and some have not.
        let at_last = group.iter().filter(|(step, _)| Some(remainder(step)) == last);
        let without = at_last.filter(|one| !with_more.contains(one));
        self.equal_remainders += u32::from(without.count() > 0);
        self.groups_of_100 += u32::from(group.len() >= 100);
        self.shared_in_hour_3 += u32::from(hour == 3);
        true
    }
}

#[test]
fn books_with_groups_at_one_price_are_varied() {
    for (day, edition) in DAYS_AND_EDITIONS {
        let mut met = Variety::default();
        for seed in 0..count("BOOKS", 200) {
            let book = read(&shared_book_on(day, edition, seed)).expect("accepted");
            assert_eq!((book.edition, book.hours.len()), (edition, day as usize));
            met.look_at(&book, &best_outcome(&book, fair_shares));
        }
        println!("{day}, {edition}: {met:?}");
        let least = met.books / 20;
        for times in [
            met.blocks_taken,
            met.sells_shared,
            met.buys_shared,
            met.both_sides_at_the_price,
            met.leftovers,
            met.equal_remainders,
            met.no_remainders,
            met.groups_of_100,
        ] {
            assert!(times >= least, "{met:?}");
        }
        assert!(day == 23 || met.shared_in_hour_3 >= least, "{met:?}");
    }
}

/// Only one side of an hour can be served in part: where both stand at the price, the other
/// gets all that it holds.
#[test]
fn one_side_is_served_in_full() {
    for seed in 0..count("BOOKS", 600) {
        let (day, edition) = DAYS_AND_EDITIONS[seed as usize % DAYS_AND_EDITIONS.len()];
        let book = read(&shared_book_on(day, edition, seed)).expect("accepted");
        for set in 0..1 << book.blocks.len() {
            let Some(outcome) = outcome(&book, set) else { continue };
            for &hour in &book.hours {
                let short = |side: Side| {
                    let price = outcome.prices[hour as usize - 1];
                    let mut steps = book
                        .steps
                        .iter()
                        .zip(&outcome.executed)
                        .filter(|(it, _)| (it.hour, it.side, it.price) == (hour, side, price));
                    steps.any(|(step, &quantity)| quantity < i64::from(step.quantity))
                };
                assert!(!(short(Side::Buy) && short(Side::Sell)), "seed {seed}, hour {hour}");
            }
        }
    }
}
