//! Document 02, P7: "Prices that can give way". Document 02's example, the shift of a set by
//! the paper's words on random books, and what does not move with it.
//!
//! The environment variable BOOKS raises the counts (at least 1500).

use auction_listing::books::{
    count, pricing_case_on, shift_edges, shifted_book_on, shifted_days, shifted_orders_on,
    small_book_on, tiny_shifted_book_on, Dice, Met, Orders, DAYS,
};
use auction_listing::paper::{
    best_outcome, cash, clear, executed, fair_shares, families, holds_parents, keeps_limit,
    net_block_sales, outcome, price_hour, prices_at_shift, read, result_length, sheet, shift_of,
    shifted, shifts, Book, Ends, HourAnswer, Outcome, Published,
    Side::{Buy, Sell},
    MIDDLE_SHIFT,
};

const LEAST_BOOKS: u64 = 1_500;

fn day(name: &str) -> Orders {
    let days = shifted_days();
    days.into_iter().find(|(other, _)| *other == name).expect(name).1
}

fn best(orders: &Orders) -> Outcome {
    best_outcome(&read(&orders.book()).expect("accepted"), fair_shares)
}

fn published(book: &[u8]) -> Published {
    Published::from_bytes(&clear(book, result_length(book.len() / 16)).expect("cleared"))
}

/// L and H of each hour under a set, by pricing one hour after another; nothing where one
/// does not clear.
fn ends_of(book: &Book, bytes: &[u8], set: u32) -> Option<Ends> {
    let mut ends = [(0, 0); 24];
    for &hour in &book.hours {
        match price_hour(bytes, set, hour) {
            HourAnswer::Cleared { low, high, price } => {
                assert_eq!(price, (low + high) / 2, "a single hour has the middle price");
                ends[hour as usize - 1] = (low, high);
            }
            HourAnswer::NotClearing => return None,
            HourAnswer::Refused(refusal) => panic!("refused with {refusal}"),
        }
    }
    Some(ends)
}

/// Whether a shift keeps all blocks of a set.
fn keeps_all(book: &Book, set: u32, ends: &Ends, t: u32) -> bool {
    let prices = prices_at_shift(ends, t);
    let taken = (0..book.blocks.len()).filter(|position| (set >> position) & 1 == 1);
    taken.into_iter().all(|position| keeps_limit(book, &book.blocks[position], &prices))
}

/// "For a sell block at 3000 and a buy block at 5000 alone, of equal size and hours, t is 16
/// and the price 4800."
#[test]
fn the_example() {
    let orders = day("shift-alone");
    let outcome = best(&orders);
    assert_eq!((outcome.set, outcome.shift), (0b11, 16));
    assert_eq!(outcome.prices, [4_800; 24]);
    assert_eq!(outcome.welfare, 2 * 50 * (5_000 - 3_000));
    // The other end of the shifts that keep both is 10, and none beside them does.
    let (bytes, mut keeping) = (orders.book(), Vec::new());
    let book = read(&bytes).unwrap();
    let ends = ends_of(&book, &bytes, 0b11).expect("every hour clears");
    assert_eq!(ends, [(1, 300_000); 24]);
    keeping.extend((0..=1_000).filter(|&t| keeps_all(&book, 0b11, &ends, t)));
    assert_eq!(keeping, (10..=16).collect::<Vec<u32>>());
    // "Two blocks that would trade with each other stay out over the middle price."
    for edition in [1, 2, 3] {
        let outcome = best(&orders.clone().of_edition(edition));
        assert_eq!((outcome.set, outcome.shift, outcome.prices), (0, 500, [150_000; 24]));
    }
}

/// Of any size and any hours, on any day; hour 3 of a day of 23 hours stays 0 and 0.
#[test]
fn the_example_on_all_days() {
    for (day, hours) in DAYS.into_iter().flat_map(|day| {
        [&[1, 2][..], &[2, 3, 4], &[3, 4, 24], &[1, 23, 24]].map(|hours| (day, hours))
    }) {
        for quantity in [1, 50, 250] {
            let orders = Orders::new()
                .of_edition(4)
                .on_day_of(day)
                .block(Sell, hours, 3_000, quantity, 1)
                .block(Buy, hours, 5_000, quantity, 2);
            let outcome = best(&orders);
            assert_eq!((outcome.set, outcome.shift), (0b11, 16), "{day} hours, {hours:?}");
            for hour in 1..=24 {
                let row = (outcome.prices[hour - 1], outcome.traded[hour - 1]);
                let trades = hours.contains(&(hour as u32));
                let traded = if trades { i64::from(quantity) } else { 0 };
                let expected = if (day, hour) == (23, 3) { (0, 0) } else { (4_800, traded) };
                assert_eq!(row, expected, "{day} hours, {hours:?}, hour {hour}");
            }
        }
    }
}

/// The other days that are checked by hand, and what is written of them.
#[test]
fn days_by_hand() {
    let above = best(&day("shift-above"));
    assert_eq!((above.set, above.shift, above.welfare), (0b11, 629, 3 * 50 * 2));
    // 8000 + 14 x 629 over hour 2 and, twice, hour 3; "t moves all hours", also those without
    // orders: 1 + 299999 x 629 / 1000.
    assert_eq!((above.prices[1], above.prices[2]), (5_258, 5_774));
    assert_eq!((above.prices[0], above.prices[23]), (188_700, 188_700));
    let linked = day("shift-linked");
    let outcome = best(&linked);
    assert_eq!((outcome.set, outcome.shift, outcome.welfare), (0b1100, 400, 2 * 50 * 600));
    assert_eq!(outcome.prices[..2], [4_400, 4_400]);
    let book = linked.book();
    assert_eq!(families(&book), b"block;gain\n1;0\n3;60000\n");
    assert!(sheet(&book).starts_with(b"hour;cents;tenths\n1;4400;50\n2;4400;50\n3;120000;0\n"));
    let all = b"all;100;100;440000;440000\n";
    assert!(cash(&book).ends_with(all), "{}", String::from_utf8_lossy(&cash(&book)));
    // Without its links the cheaper sell is taken.
    let free = Orders { links: Vec::new(), ..linked };
    assert_eq!((best(&free).set, best(&free).shift), (0b110, 400));
}

/// "L plus (H − L) times t divided by 1000, rounded down"; at 500 it is the middle price.
#[test]
fn a_shifted_price() {
    assert_eq!((shifted(1, 300_000, 0), shifted(1, 300_000, 1_000)), (1, 300_000));
    assert_eq!((shifted(1, 300_000, 16), shifted(1, 300_000, 17)), (4_800, 5_100));
    assert_eq!((shifted(3_000, 3_003, 333), shifted(3_000, 3_003, 334)), (3_000, 3_001));
    assert_eq!((shifted(7, 8, 999), shifted(7, 8, 1_000)), (7, 8));
    let mut dice = Dice::new(7);
    for _ in 0..20_000 {
        let low = dice.between(1, 300_000);
        let high = dice.between(low, 300_000);
        assert_eq!(shifted(low, high, MIDDLE_SHIFT), (low + high) / 2);
        assert!((low..=high).contains(&shifted(low, high, dice.between(0, 1_000))));
    }
}

/// "The t nearest 500 .. , of two the smaller": all of 0 to 1000, each once.
#[test]
fn the_order_of_the_shifts() {
    let all: Vec<u32> = shifts().collect();
    assert_eq!(all[..5], [500, 499, 501, 498, 502]);
    assert_eq!((all.len(), all[999], all[1_000]), (1_001, 0, 1_000));
    assert!(all.windows(2).all(|pair| {
        let far = |t: u32| (t.abs_diff(MIDDLE_SHIFT), t);
        far(pair[0]) < far(pair[1])
    }));
}

/// What is looked at in the sets of random books.
#[derive(Debug, Default)]
struct Sets {
    lawful: u64,
    below: u64,
    above: u64,
    at_an_end: u64,
    lawful_in_edition_3_too: u64,
    no_shift_keeps: u64,
    one_shift_keeps: u64,
    no_hour_clears: u64,
}

impl Sets {
    fn look_at(&mut self, name: &str, bytes: &[u8], set: u32) {
        let book = read(bytes).expect("accepted");
        let found = outcome(&book, set);
        let Some(ends) = ends_of(&book, bytes, set) else {
            self.no_hour_clears += 1;
            return assert!(found.is_none(), "{name}");
        };
        let keeping: Vec<u32> = (0..=1_000).filter(|&t| keeps_all(&book, set, &ends, t)).collect();
        assert!(keeping.windows(2).all(|pair| pair[0] + 1 == pair[1]), "{name}: no interval");
        let (Some(&first), Some(&last)) = (keeping.first(), keeping.last()) else {
            // "where every hour clears, the set is unlawful exactly when no t does"
            self.no_shift_keeps += 1;
            assert_eq!(shift_of(&book, set, &ends), None, "{name}");
            return assert!(found.is_none(), "{name}");
        };
        let nearest = MIDDLE_SHIFT.clamp(first, last);
        assert_eq!(shift_of(&book, set, &ends), Some(nearest), "{name}");
        self.one_shift_keeps += u64::from(first == last);
        if !holds_parents(&book, set) {
            return assert!(found.is_none(), "{name}");
        }
        let found = found.unwrap_or_else(|| panic!("{name}: unlawful"));
        assert_eq!(found.shift, nearest, "{name}");
        assert_eq!(found.prices, prices_at_shift(&ends, nearest), "{name}");
        self.lawful += 1;
        self.below += u64::from(nearest < MIDDLE_SHIFT);
        self.above += u64::from(nearest > MIDDLE_SHIFT);
        self.at_an_end += u64::from([0, 1_000].contains(&nearest));
        self.lawful_in_edition_3_too += u64::from(is_as_in_edition_3(name, bytes, &found));
    }
}

/// A set that is lawful at the middle price keeps it: then nothing differs from edition 3.
/// The other way round, at the shift 500 the set is lawful in edition 3.
fn is_as_in_edition_3(name: &str, bytes: &[u8], found: &Outcome) -> bool {
    let mut before = bytes.to_vec();
    before[7] = 3;
    let before = outcome(&read(&before).expect("accepted"), found.set);
    match found.shift {
        MIDDLE_SHIFT => assert_eq!(before.as_ref(), Some(found), "{name}"),
        _ => assert_eq!(before, None, "{name}"),
    }
    found.shift == MIDDLE_SHIFT
}

fn shifted_books(books: u64) -> impl Iterator<Item = (String, Vec<u8>)> {
    (0..books).map(|seed| {
        let day = DAYS[seed as usize % DAYS.len()];
        (format!("shifted_book_on({day}, 4, {seed})"), shifted_book_on(day, 4, seed))
    })
}

fn edges() -> impl Iterator<Item = (String, Vec<u8>)> {
    let edges = shift_edges().into_iter().enumerate();
    edges.map(|(index, book)| (format!("edge {index} of the shift"), book))
}

/// Every set of random books and of those at the edges: the shifts that keep its blocks are
/// an interval, the one nearest 500 is used, and where there is none the set is unlawful.
#[test]
fn the_shift_of_every_set() {
    let mut met = Sets::default();
    for (name, book) in shifted_books(count("BOOKS", LEAST_BOOKS) / 5).chain(edges()) {
        let blocks = read(&book).unwrap().blocks.len();
        for set in (0..1 << blocks).filter(|set: &u32| blocks < 6 || set.count_ones() > 4) {
            met.look_at(&format!("{name}, set {set:b}"), &book, set);
        }
    }
    println!("{met:?}");
    assert!(met.lawful_in_edition_3_too >= 500 && met.lawful >= 1_000);
    assert!(met.below >= 200 && met.above >= 200 && met.at_an_end >= 50);
    assert!(met.no_shift_keeps >= 500 && met.one_shift_keeps >= 50 && met.no_hour_clears >= 500);
}

/// The empty set has t = 500: without blocks no edition differs from another.
#[test]
fn the_empty_set() {
    for (name, bytes) in shifted_books(300) {
        let book = read(&bytes).unwrap();
        let empty = outcome(&book, 0).expect("the empty set is lawful");
        assert_eq!(empty.shift, MIDDLE_SHIFT, "{name}");
        assert!(is_as_in_edition_3(&name, &bytes, &empty), "{name}");
    }
}

/// Quantities, traded amounts and welfare of a set are those at every price from L to H; only
/// the prices move with t.
#[test]
fn quantities_do_not_move_with_the_shift() {
    let mut moved = 0;
    for (name, bytes) in shifted_books(count("BOOKS", LEAST_BOOKS)) {
        let book = read(&bytes).unwrap();
        let best = best_outcome(&book, fair_shares);
        let ends = ends_of(&book, &bytes, best.set).expect("a lawful set clears");
        moved += u32::from(best.shift != MIDDLE_SHIFT);
        for &hour in &book.hours {
            let steps = book.steps_of(hour);
            let n = net_block_sales(&book.blocks, best.set, hour);
            let own: Vec<i64> =
                book.steps.iter().zip(&best.executed).filter_map(own_of(hour)).collect();
            let (low, high) = ends[hour as usize - 1];
            for price in [low, (low + high) / 2, high] {
                assert_eq!(executed(&steps, n, price), own, "{name}, hour {hour}, {price}");
            }
        }
    }
    assert!(moved >= 300, "{moved}");
}

type Executed<'a> = (&'a auction_listing::paper::Step, &'a i64);

/// What a step of an hour got.
fn own_of(hour: u32) -> impl Fn(Executed) -> Option<i64> {
    move |(step, &quantity)| (step.hour == hour).then_some(quantity)
}

/// "pricing a single hour still answers with the middle price", under any set and in any
/// edition.
#[test]
fn a_single_hour_has_the_middle_price() {
    for seed in 0..count("BOOKS", LEAST_BOOKS) {
        let day = DAYS[seed as usize % DAYS.len()];
        let (mut book, set, hour) = pricing_case_on(day, 4, seed);
        let answer = price_hour(&book, set, hour);
        if let HourAnswer::Cleared { low, high, price } = answer {
            assert_eq!(price, (low + high) / 2, "seed {seed}");
        }
        book[7] = 3;
        assert_eq!(price_hour(&book, set, hour), answer, "seed {seed}");
    }
}

/// No set is lost by the edition, so that the welfare of the same orders does not fall; nor
/// does anything differ where the same set is taken at the shift 500.
#[test]
fn the_same_orders_in_edition_3() {
    let (mut more, mut same) = (0, 0);
    for (name, bytes) in shifted_books(count("BOOKS", LEAST_BOOKS)) {
        let mut before = bytes.clone();
        before[7] = 3;
        let (one, other) = (published(&bytes), published(&before));
        assert!(one.welfare >= other.welfare, "{name}");
        more += u32::from(one.welfare > other.welfare);
        same += u32::from(one == other);
    }
    println!("more welfare: {more}, the same: {same}");
    assert!(more >= 300 && same >= 300);
}

/// In editions 1 to 3 prices do not give way: the same orders there differ in nothing.
#[test]
fn editions_before_differ_in_nothing() {
    for seed in 0..count("BOOKS", LEAST_BOOKS) {
        let day = DAYS[seed as usize % DAYS.len()];
        let orders = shifted_orders_on(day, 2, &mut Dice::new(seed));
        let [second, third] = [2, 3].map(|edition| best(&orders.clone().of_edition(edition)));
        assert_eq!((&second, second.shift), (&third, MIDDLE_SHIFT), "seed {seed}");
    }
}

/// The random books are worth comparing on.
#[test]
fn the_books_are_varied() {
    let [mut below, mut above, mut taken, mut linked, mut both, mut alone] = [0; 6];
    for (name, bytes) in shifted_books(1_500) {
        let book = read(&bytes).unwrap_or_else(|refusal| panic!("{name}: {refusal}"));
        let best = best_outcome(&book, fair_shares);
        let takes = |side| {
            let in_set = |position: usize| (best.set >> position) & 1 == 1;
            (0..book.blocks.len()).any(|it| in_set(it) && book.blocks[it].side == side)
        };
        below += u32::from(best.shift < MIDDLE_SHIFT);
        above += u32::from(best.shift > MIDDLE_SHIFT);
        taken += u32::from(best.set != 0);
        linked += u32::from(best.set != 0 && !book.links.is_empty());
        both += u32::from(takes(Buy) && takes(Sell));
        alone += u32::from(best.set != 0 && book.steps.is_empty());
    }
    println!("{below} below, {above} above, {taken} taken, {linked} linked, {both} both sides, {alone} alone");
    assert!(below >= 200 && above >= 150 && taken >= 700);
    assert!(linked >= 150 && both >= 500 && alone >= 20);
}

/// All of them are accepted, of their day and edition, and so are the small ones.
#[test]
fn the_books_are_accepted() {
    for seed in 0..2_000 {
        let day = DAYS[seed as usize % DAYS.len()];
        for book in [
            shifted_book_on(day, 4, seed),
            tiny_shifted_book_on(day, 4, seed),
            small_book_on(day, 4, seed),
        ] {
            let answer = read(&book).err().unwrap_or(0);
            assert_eq!((answer, u32::from(book[6]), book[7]), (0, day, 4), "seed {seed}");
        }
    }
    let met: Met = edges().map(|(_, book)| read(&book).err().unwrap_or(0)).collect();
    met.has_each([0], shift_edges().len() as u64);
}
