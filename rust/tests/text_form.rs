//! The plain-text form: there and back, and its errors.

use auction_listing::books::{
    block_beside_the_day, book_with_causes, day_of_23_hours, day_of_25_hours, edition_2_day,
    small_book_of, small_book_on, step_beside_the_day, worked_days, Dice, Orders,
    DAYS_AND_EDITIONS,
};
use auction_listing::paper::read;
use auction_listing::paper::Side::{Buy, Sell};
use auction_listing::text::{refusal_meaning, to_book, to_text};

#[test]
fn a_text_becomes_the_book_it_says() {
    let text = "
        # the base book's first hour, with blocks
        step buy hour 1 price 5000 quantity 100 portfolio 1
        step sell hour 1 price 3000 quantity 100 portfolio 2   # number 2

        block sell hours 1-8,21-24 price 2900 quantity 50 portfolio 3
        block portfolio 3
    ";
    let wrong = to_book(text).unwrap_err();
    assert_eq!(wrong.line, 7);
    let text =
        text.replace("block portfolio 3", "block buy portfolio 3 hours 2,1 quantity 1 price 7");
    let hours: Vec<u32> = (1..=8).chain(21..=24).collect();
    let orders = Orders::new()
        .step(Buy, 1, 5_000, 100, 1)
        .step(Sell, 1, 3_000, 100, 2)
        .block(Sell, &hours, 2_900, 50, 3)
        .block(Buy, &[1, 2], 7, 1, 3);
    assert_eq!(to_book(&text).unwrap(), orders.book());
}

/// Lines in any order: the lines give the records, the numbers the chains.
#[test]
fn numbers_and_records() {
    let text = "step buy hour 1 price 10 quantity 1 portfolio 1 number 9
                block sell hours 1,2 price 10 quantity 1 portfolio 1
                step sell hour 1 price 20 quantity 2 portfolio 1 number 4
                step sell hour 1 price 30 quantity 3 portfolio 1";
    let book = to_book(text).unwrap();
    let read = read(&book).unwrap();
    let steps: Vec<(u32, usize)> =
        read.steps.iter().map(|step| (step.number, step.record)).collect();
    assert_eq!(steps, [(4, 3), (5, 4), (9, 1)]);
    assert_eq!((read.blocks[0].number, read.blocks[0].record), (1, 2));
}

#[test]
fn every_accepted_book_comes_back_to_the_byte() {
    for (edition, seed) in (0..2_000).flat_map(|seed| [1, 2, 3, 4].map(|edition| (edition, seed))) {
        let book = small_book_of(edition, seed);
        let text = to_text(&book).unwrap();
        assert_eq!(to_book(&text).unwrap(), book, "small_book_of({edition}, {seed})\n{text}");
        assert_eq!(to_text(&to_book(&text).unwrap()).unwrap(), text);
        // A text of edition 1 is what it was before there was another.
        assert_eq!(text.contains("edition"), edition > 1, "{text}");
        assert!(!text.contains("day"), "{text}");
    }
}

#[test]
fn every_accepted_book_of_a_day_comes_back_to_the_byte() {
    for (day, edition) in DAYS_AND_EDITIONS {
        for seed in 0..500 {
            let book = small_book_on(day, edition, seed);
            let text = to_text(&book).unwrap();
            let name = format!("small_book_on({day}, {edition}, {seed})");
            assert_eq!(to_book(&text).unwrap(), book, "{name}\n{text}");
            assert_eq!(text.contains(&format!("\nday {day}\n")), day != 24, "{text}");
            assert_eq!(text.contains(&format!("\nedition {edition}\n")), edition > 1, "{text}");
        }
    }
}

#[test]
fn the_day_is_named_in_front_of_the_orders() {
    for (orders, blocks) in [(day_of_25_hours(), "hours 2,3"), (day_of_23_hours(), "hours 2-4")] {
        let text = to_text(&orders.book()).unwrap();
        let lines: Vec<&str> = text.lines().collect();
        assert_eq!(lines[..2], ["# 4 steps, 1 blocks", &format!("day {}", orders.day)]);
        assert!(lines[6].contains(blocks), "{text}");
        // Edition and day in either order; a day of 24 hours may be named.
        let both = [format!("edition 2\n{text}"), text.replace("day", "edition 2\nday")];
        for text in both {
            assert_eq!(to_book(&text).unwrap(), orders.clone().of_edition(2).book(), "{text}");
        }
        let on_24 = text.replace(lines[1], "day 24");
        assert_eq!(to_book(&on_24).unwrap(), orders.on_day_of(24).book());
    }
}

/// What is wrong with a line `day`, and the orders that it does not allow with their lines.
#[test]
fn errors_of_days() {
    let step = "step buy hour 3 price 10 quantity 1 portfolio 9";
    let block = "block buy hours 2,3 price 10 quantity 1 portfolio 9";
    for (text, message) in [
        ("day", "line 1: `day` has no value; expected one after it"),
        ("day 22", "line 1: `day 22`; expected a whole number from 23 to 25"),
        ("day 26", "line 1: `day 26`; expected a whole number from 23 to 25"),
        ("day long", "line 1: `day long`; expected a whole number from 23 to 25"),
        ("day 23 24", "line 1: `24` after the day; expected the end of the line"),
        ("day 25\nedition 2\nday 25", "line 3: `day` stands twice; expected it once"),
        (
            &format!("{block}\nday 25"),
            "line 2: `day` after an order; expected it in front of all orders",
        ),
        (
            &format!("day 23\n{step}"),
            "line 2: `hour 3` is not on a day of 23 hours; expected another",
        ),
        (
            &format!("day 23\n{block}"),
            "line 2: `hours 2,3` is one hour on a day of 23 hours; expected at least two",
        ),
        (
            &format!("day 25\n{}", block.replace("2,3", "3")),
            "line 2: `hours 3` is one hour; expected at least two",
        ),
    ] {
        assert_eq!(to_book(text).unwrap_err().to_string(), message, "{text}");
    }
    for day in [24, 25] {
        assert!(to_book(&format!("day {day}\n{step}\n{block}")).is_ok());
    }
    assert!(to_book(&format!("day 23\n{}", block.replace("2,3", "2-4"))).is_ok());
}

#[test]
fn the_edition_is_named_in_front_of_the_orders() {
    let block = "block sell hours 1,2 price 2900 quantity 250 portfolio 3";
    let orders = Orders::new().of_edition(2).block(Sell, &[1, 2], 2_900, 250, 3);
    for text in [
        format!("edition 2\n{block}\n"),
        format!("\n# a day of the second edition\n  edition 2  # from the notice\n\n{block}"),
    ] {
        assert_eq!(to_book(&text).unwrap(), orders.book(), "{text}");
    }
    assert_eq!(to_book("edition 2").unwrap(), Orders::new().of_edition(2).book());
    assert_eq!(to_book("edition 1").unwrap(), Orders::new().book());
    assert_eq!(to_book("").unwrap(), Orders::new().book());
    let text = to_text(&edition_2_day().book()).unwrap();
    let lines: Vec<&str> = text.lines().take(3).collect();
    assert_eq!(lines[..2], ["# 4 steps, 10 blocks", "edition 2"]);
    assert_eq!(lines[2], "step buy hour 1 price 5000 quantity 1346 portfolio 1 number 1");
    // Without the line the same blocks are beyond edition 1's limits.
    let error = to_book(&text.replace("edition 2", "")).unwrap_err().to_string();
    assert_eq!(error, "line 7: `quantity 250`; expected a whole number from 1 to 50");
}

/// What is wrong with a line `edition`, and the limits of each edition with their lines.
#[test]
fn errors_of_editions() {
    let block = "block buy hours 1,2 price 10 quantity 1 portfolio 9";
    for (text, message) in [
        ("edition", "line 1: `edition` has no value; expected one after it"),
        ("edition 0", "line 1: `edition 0`; expected a whole number from 1 to 4"),
        ("edition 5", "line 1: `edition 5`; expected a whole number from 1 to 4"),
        ("edition two", "line 1: `edition two`; expected a whole number from 1 to 4"),
        ("edition 2 3", "line 1: `3` after the edition; expected the end of the line"),
        ("edition 2\nedition 2", "line 2: `edition` stands twice; expected it once"),
        (
            &format!("{block}\nedition 2"),
            "line 2: `edition` after an order; expected it in front of all orders",
        ),
        (
            &format!("edition 2\n{}", block.replace("quantity 1", "quantity 251")),
            "line 2: `quantity 251`; expected a whole number from 1 to 250",
        ),
        (
            &format!("edition 1\n{}", block.replace("quantity 1", "quantity 51")),
            "line 2: `quantity 51`; expected a whole number from 1 to 50",
        ),
        (
            &format!("edition 2\n{}", format!("{block}\n").repeat(11)),
            "line 12: block 11 of portfolio 9; expected at most 10 of one portfolio",
        ),
        (
            &format!("edition 1\n{}", format!("{block}\n").repeat(6)),
            "line 7: block 6 of portfolio 9; expected at most 5 of one portfolio",
        ),
    ] {
        assert_eq!(to_book(text).unwrap_err().to_string(), message, "{text}");
    }
    assert!(to_book(&format!("edition 2\n{}", format!("{block}\n").repeat(10))).is_ok());
    let full = block.replace("quantity 1", "quantity 250");
    assert!(to_book(&format!("edition 2\n{full}")).is_ok());
}

#[test]
fn links_have_lines() {
    let text = "edition 3
        link parent 2 child 4
        block sell hours 1,2 price 10 quantity 1 portfolio 1 number 2
        block sell hours 1,2 price 10 quantity 1 portfolio 1
        link child 3 parent 2
        block sell hours 1,2 price 10 quantity 1 portfolio 1";
    let book = to_book(text).unwrap();
    let accepted = read(&book).unwrap();
    let links: Vec<(usize, u32, u32)> =
        accepted.links.iter().map(|link| (link.record, link.child, link.parent)).collect();
    assert_eq!(links, [(4, 3, 2), (1, 4, 2)]);
    let text = to_text(&book).unwrap();
    let lines: Vec<&str> = text.lines().collect();
    assert_eq!(lines[..3], ["# 0 steps, 3 blocks, 2 links", "edition 3", "link child 4 parent 2"]);
    assert_eq!(to_book(&text).unwrap(), book);
}

/// What is wrong with a line `link`; the blocks are looked for when all lines are read.
#[test]
fn errors_of_links() {
    let blocks = "block sell hours 1,2 price 10 quantity 1 portfolio 1\n".repeat(3);
    let cases = [
        ("link", "line 5: `child` is missing; expected `child` and its value"),
        ("link child 2", "line 5: `parent` is missing; expected `parent` and its value"),
        ("link child 2 parent", "line 5: `parent` has no value; expected one after it"),
        ("link child 2 child 3", "line 5: `child` stands twice; expected it once"),
        ("link block 2", "line 5: unknown field `block`; expected one of: child, parent"),
        ("link child 0 parent 1", "line 5: `child 0`; expected a whole number from 1 to 65535"),
        ("link child 2 parent 0", "line 5: `parent 0`; expected a whole number from 1 to 65535"),
        ("link child 2 parent 2", "line 5: `child 2 parent 2`; expected a parent below its child"),
        ("link child 1 parent 2", "line 5: `child 1 parent 2`; expected a parent below its child"),
        ("link child 4 parent 2", "line 5: `child 4`; expected the number of a block"),
        (
            "link child 3 parent 1\nlink child 2 parent 1\nlink child 3 parent 2",
            "line 7: child number 3 is already on line 5; expected each number once among the children",
        ),
    ];
    for (lines, message) in cases {
        let error = to_book(&format!("edition 3\n{blocks}{lines}\n")).unwrap_err();
        assert_eq!(error.to_string(), message, "{lines}");
    }
    let gap = blocks.replacen("portfolio 1\n", "portfolio 1 number 2\n", 1);
    let error = to_book(&format!("edition 3\nlink child 3 parent 1\n{gap}")).unwrap_err();
    assert_eq!(error.to_string(), "line 2: `parent 1`; expected the number of a block");
    for edition in [1, 2] {
        let error = to_book(&format!("edition {edition}\n{blocks}link child 2 parent 1"));
        let message = format!(
            "line 5: `link` in edition {edition}; expected `edition 3` or `edition 4` in front of all orders"
        );
        assert_eq!(error.unwrap_err().to_string(), message);
    }
    let late = to_book(&format!("edition 3\nlink child 2 parent 1\nday 23\n{blocks}"));
    assert_eq!(late.unwrap_err().line, 3);
}

#[test]
fn the_text_of_s5() {
    let found = worked_days().into_iter().find(|(name, _)| *name == "S5");
    let text = to_text(&found.unwrap().1.book()).unwrap();
    let lines: Vec<&str> = text.lines().collect();
    assert_eq!(lines[0], "# 4 steps, 1 blocks");
    assert_eq!(lines[1], "step buy hour 1 price 5000 quantity 100 portfolio 1 number 1");
    assert_eq!(lines[5], "block sell hours 1,2 price 2900 quantity 50 portfolio 3 number 1");
}

#[test]
fn hours_are_printed_as_ranges() {
    let orders = Orders::new().block(Buy, &[1, 2, 3, 5, 7, 8, 22, 23, 24], 10, 1, 1);
    let text = to_text(&orders.book()).unwrap();
    assert!(text.contains(" hours 1-3,5,7,8,22-24 "), "{text}");
}

#[test]
fn refused_books_have_no_text() {
    let mut dice = Dice::new(5);
    for cause in 1..=6 {
        assert_eq!(to_text(&book_with_causes(&[cause], &mut dice)), Err(cause));
        assert!(!refusal_meaning(cause).is_empty());
    }
    for orders in [step_beside_the_day(), block_beside_the_day()] {
        assert_eq!(to_text(&orders.book()), Err(9));
        assert!(refusal_meaning(9).starts_with("on a day of 23 hours: "));
    }
}

/// Each error names its line, what is wrong and what is expected.
#[test]
fn errors() {
    let step = "step buy hour 1 price 10 quantity 1 portfolio 1";
    let block = "block buy hours 1,2 price 10 quantity 1 portfolio 1";
    let cases = [
        ("order buy", "`order` where an order begins; expected `step` or `block`"),
        ("step", "the line ends before the side; expected `buy` or `sell`"),
        ("step bid hour 1", "`bid` where the side stands; expected `buy` or `sell`"),
        ("step buy hour", "`hour` has no value; expected one after it"),
        ("step buy hour 1 hour 2", "`hour` stands twice; expected it once"),
        ("step buy hours 1,2", "unknown field `hours`; expected one of: hour, price, quantity"),
        ("block buy hour 1", "unknown field `hour`; expected one of: hours, price, quantity"),
        ("step buy hour 1 price 5", "`quantity` is missing; expected `quantity` and its value"),
        (&step.replace("hour 1", "hour 25"), "`hour 25`; expected a whole number from 1 to 24"),
        (
            &step.replace("price 10", "price 0"),
            "`price 0`; expected a whole number from 1 to 300000",
        ),
        (&step.replace("price 10", "price 300001"), "expected a whole number from 1 to 300000"),
        (&step.replace("price 10", "price +5"), "`price +5`; expected a whole number"),
        (&step.replace("price 10", "price 5.5"), "`price 5.5`; expected a whole number"),
        (
            &step.replace("price 10", "price 99999999999"),
            "expected a whole number from 1 to 300000",
        ),
        (&step.replace("quantity 1", "quantity 100000"), "expected a whole number from 1 to 99999"),
        (&step.replace("portfolio 1", "portfolio 256"), "expected a whole number from 1 to 255"),
        (&format!("{step} number 0"), "`number 0`; expected a whole number from 1 to 65535"),
        (&format!("{step} number 65536"), "expected a whole number from 1 to 65535"),
        (&format!("{step} number"), "`number` has no value"),
        (&block.replace("quantity 1", "quantity 51"), "expected a whole number from 1 to 50"),
        (&block.replace("1,2", "1"), "`hours 1` is one hour; expected at least two"),
        (&block.replace("1,2", "1,,2"), "expected hours from 1 to 24 without spaces"),
        (&block.replace("1,2", "1,25"), "expected hours from 1 to 24 without spaces"),
        (&block.replace("1,2", "1-"), "expected hours from 1 to 24 without spaces"),
        (&block.replace("1,2", "8-1"), "8-1 runs backwards; expected 1-8"),
        (&block.replace("1,2", "1-3,2"), "hour 2 stands twice; expected it once"),
    ];
    for (line, message) in cases {
        let error = to_book(&format!("# first\n\n{line}\n{step}\n")).unwrap_err();
        assert_eq!(error.line, 3, "{line}: {error}");
        assert!(error.message.contains(message), "{line}: {error}");
    }
}

#[test]
fn errors_across_lines() {
    let step = "step buy hour 1 price 10 quantity 1 portfolio 1";
    let block = "block buy hours 1,2 price 10 quantity 1 portfolio";
    let same = format!("{step} number 4\n{step}\n{step} number 4\n");
    let error = to_book(&same).unwrap_err();
    assert_eq!(
        error.to_string(),
        "line 3: step number 4 is already on line 1; expected each number once among the steps"
    );
    let crowded: String = (0..6).map(|_| format!("{block} 9\n")).collect();
    assert_eq!(to_book(&crowded).unwrap_err().line, 6);
    let many = |count: u32| (0..count).map(|n| format!("{block} {}\n", n + 1)).collect::<String>();
    assert!(to_book(&many(32)).is_ok());
    assert_eq!(to_book(&many(33)).unwrap_err().line, 33);
    assert!(to_book(&format!("{step}\n").repeat(2_047)).is_ok());
    assert_eq!(to_book(&format!("{step}\n").repeat(2_048)).unwrap_err().line, 2_048);
    let after_the_last = format!("{step} number 65535\n{step}\n");
    assert_eq!(to_book(&after_the_last).unwrap_err().line, 2);
}

#[test]
fn no_orders_is_the_head_alone() {
    assert_eq!(to_book("# nothing today\n").unwrap(), Orders::new().book());
}
