//! The samples with links, and the family report as text and decoded.

mod samples;

use auction::{Family, Kind, Refusal, Row};
use samples::{each_text, sample};

#[test]
fn outcomes() {
    let both = auction::clear(&sample("linked-both.book")).expect("accepted");
    assert_eq!((both.welfare, both.price(1), both.traded(1)), (500_000, 4_000, 150));
    assert_eq!(both.taken().collect::<Vec<u32>>(), [1, 2]);
    assert_eq!(both.rows[6], Row { kind: Kind::Link, number: 2, executed: 0 });
    let left_out = auction::clear(&sample("linked-left-out.book")).expect("accepted");
    assert_eq!((left_out.welfare, left_out.set()), (400_000, 0));
    // The number of a link is that of a block as well.
    assert_eq!((left_out.block(2), left_out.step(2)), (Some(0), Some(100)));
}

#[test]
fn families() {
    let generations = auction::families(&sample("linked-generations.book")).expect("accepted");
    assert_eq!(generations, [Family { block: 1, gain: 64_500 }, Family { block: 6, gain: 30_000 }]);
    assert_eq!(auction::families(&sample("S1.book")), Ok(Vec::new()));
    assert_eq!(
        auction::families(&sample("S6.book")),
        Ok(vec![Family { block: 1, gain: 10_000 }, Family { block: 2, gain: 0 }])
    );
}

/// The report of each sample, whole and in buffers that are too short.
#[test]
fn reports() {
    each_text("families", auction::family_report, auction::families_into, |book| {
        let line = |family: &Family| format!("{};{}\n", family.block, family.gain);
        let lines: String = auction::families(book)?.iter().map(line).collect();
        Ok("block;gain\n".to_string() + &lines)
    });
}

#[test]
fn refusals() {
    for name in ["refused-10.book", "refused-10-order.book"] {
        let book = sample(name);
        assert_eq!(auction::read(&book), Err(Refusal::Link), "{name}");
        assert_eq!(auction::clear_into(&book, &mut []), Err(Refusal::Link), "{name}");
        assert_eq!(auction::price(&book, 0, 99), Err(Refusal::Link), "{name}");
        assert_eq!(auction::families(&book), Err(Refusal::Link), "{name}");
        assert_eq!(auction::sheet(&book), "refused;10\n", "{name}");
    }
    assert_eq!(auction::read(&sample("refused-2-edition-3.book")), Err(Refusal::Head));
    assert_eq!(auction::families(b""), Err(Refusal::Length));
}
