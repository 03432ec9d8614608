//! The most steps of a portfolio in an hour, through the binding: 256 in edition 4.

use auction::Refusal;
use std::path::Path;

fn sample(name: &str) -> Vec<u8> {
    let folder = Path::new(env!("CARGO_MANIFEST_DIR")).join("../../samples");
    std::fs::read(folder.join(name)).expect(name)
}

#[test]
fn as_many_as_there_may_be() {
    let outcome = auction::clear(&sample("steps-256.book")).expect("accepted");
    assert_eq!((outcome.welfare, outcome.price(1), outcome.traded(1)), (163_840, 4_000, 1_280));
}

#[test]
fn one_more() {
    let book = sample("refused-11.book");
    assert_eq!(auction::read(&book), Err(Refusal::Steps));
    assert_eq!(auction::clear_into(&book, &mut []), Err(Refusal::Steps));
    assert_eq!(auction::price(&book, 0, 99), Err(Refusal::Steps));
    assert_eq!(auction::families(&book), Err(Refusal::Steps));
    assert_eq!(auction::cash(&book), Err(Refusal::Steps));
    assert_eq!(auction::sheet(&book), "refused;11\n");
    let words = "refused with 11: in edition 4: more than 256 steps of a portfolio in one hour";
    assert_eq!(Refusal::Steps.to_string(), words);
}
