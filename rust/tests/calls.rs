//! The calls by name and number of parameters: the exports, the header, the README, the
//! page of the calls, both bindings and the libraries say the same. And what the header
//! says of refusals is what the README says. Compiled with the feature `proved` only.

use std::collections::BTreeMap;
use std::fs;
use std::path::{Path, PathBuf};
use std::process::Command;

/// The number of parameters in C, by the name of the call.
type Calls = BTreeMap<String, usize>;

fn repository() -> PathBuf {
    Path::new(env!("CARGO_MANIFEST_DIR")).join("..")
}

fn file(name: &str) -> String {
    fs::read_to_string(repository().join(name)).unwrap_or_else(|error| panic!("{name}: {error}"))
}

/// What stands between the brackets that the text begins with.
fn bracketed(text: &str) -> Option<&str> {
    text.strip_prefix('(')?.split_once(')').map(|(inside, _)| inside)
}

/// Each place where the name of a call is followed by brackets: name and parameters.
fn mentioned(text: &str) -> Vec<(String, Vec<String>)> {
    let mut found = Vec::new();
    for (at, _) in text.match_indices("auction_") {
        let rest = &text[at..];
        let end = rest.find(|c: char| !c.is_ascii_alphanumeric() && c != '_').unwrap_or(rest.len());
        if let Some(inside) = bracketed(&rest[end..]) {
            let parameters = inside.split(',').map(str::trim).filter(|word| !word.is_empty());
            found.push((rest[..end].to_string(), parameters.map(String::from).collect()));
        }
    }
    found
}

/// The calls that are mentioned once each.
fn calls_of(name: &str, text: &str) -> Calls {
    let mut calls = Calls::new();
    for (call, parameters) in mentioned(text) {
        let before = calls.insert(call.clone(), parameters.len());
        assert_eq!(before, None, "{name}: {call} is declared twice");
    }
    assert!(!calls.is_empty(), "{name} has no call");
    calls
}

/// The exported functions; a slice is a pointer and a length.
fn exported() -> Calls {
    let source = file("crates/exports/src/lib.rt");
    let functions = source.lines().filter_map(|line| line.strip_prefix("pub extern \"C\" fn "));
    let counted = functions.map(|line| {
        let (name, rest) = line.split_at(line.find('(').expect("brackets"));
        let parameters = bracketed(rest).expect("parameters on one line").split(", ");
        (name.to_string(), parameters.map(|one| if one.contains("[u8]") { 2 } else { 1 }).sum())
    });
    counted.collect()
}

/// The header without its comments.
fn declarations() -> String {
    let header = file("include/auction.h");
    header.split("/*").map(|part| part.split_once("*/").map_or(part, |(_, code)| code)).collect()
}

#[test]
fn names_and_parameters_agree() {
    let exported = exported();
    assert_eq!(exported, calls_of("the header", &declarations()));
    assert_eq!(
        exported,
        calls_of("raw.rs", &file("bindings/rust/src/raw.rs").replace(",\n    )", ")"))
    );
    for page in ["README.md", "docs/CALLS.md"] {
        let text = file(page);
        let table: String = text.lines().filter(|line| line.starts_with("| `auction_")).collect();
        assert_eq!(exported, calls_of(page, &table), "{page}");
    }
    // Each exported function has its mark, and nothing else has.
    let marks = file("crates/exports/src/lib.rt").matches("#[unsafe(no_mangle)]").count();
    assert_eq!(marks, exported.len());
}

/// The parameters have the same names wherever a call is explained.
#[test]
fn parameters_have_their_names() {
    let last_words = |parameters: Vec<String>| -> Vec<String> {
        let word = |text: &String| text.rsplit([' ', '*']).next().unwrap_or("").to_string();
        parameters.iter().map(word).collect()
    };
    let header: BTreeMap<String, Vec<String>> =
        mentioned(&declarations()).into_iter().map(|(name, all)| (name, last_words(all))).collect();
    for page in ["README.md", "docs/CALLS.md"] {
        let text = file(page);
        let table: String = text.lines().filter(|line| line.starts_with("| `auction_")).collect();
        for (name, parameters) in mentioned(&table) {
            assert_eq!(header.get(&name), Some(&parameters), "{page}: {name}");
        }
    }
}

/// In C the header alone declares the calls.
#[test]
fn no_declaration_is_repeated() {
    for name in ["examples/clear.c", "README.md", "docs/CALLS.md"] {
        assert!(!file(name).contains("uint32_t auction_"), "{name} declares a call");
    }
    assert!(file("examples/clear.c").contains("#include \"auction.h\""));
}

/// The names in a library that begin as a call's do.
fn names_in(library: &str, options: &[&str]) -> Vec<String> {
    let mut nm = Command::new("nm");
    nm.args(options).arg(repository().join("target/lib").join(library));
    let output = nm.output().expect("nm");
    assert!(output.status.success(), "{nm:?}");
    let text = String::from_utf8(output.stdout).expect("text");
    let mut names: Vec<String> = text
        .lines()
        .filter(|line| line.contains(" T "))
        .filter_map(|line| line.split_whitespace().last().map(String::from))
        .collect();
    names.sort();
    names
}

#[test]
fn the_libraries_have_the_calls() {
    let expected: Vec<String> = exported().into_keys().collect();
    // The shared library has no other names; the static one has those of inner functions too.
    assert_eq!(names_in("libauction.so", &["-D", "--defined-only"]), expected);
    let inside = names_in("libauction.a", &["--defined-only"]);
    assert!(expected.iter().all(|name| inside.contains(name)), "{inside:?}");
}

/// The rows `| number | words |` of the README's refusals.
#[test]
fn refusals_have_the_words_of_the_header() {
    let readme = file("README.md");
    let (_, part) = readme.split_once("## Refusals").expect("a part on refusals");
    let part = part.split("\n## ").next().expect("its text");
    let rows = part.lines().filter_map(|line| {
        let cells: Vec<&str> = line.split('|').map(str::trim).collect();
        Some((cells.get(1)?.parse::<u32>().ok()?, cells.get(2)?.to_string()))
    });
    let known =
        auction::header::REFUSALS.iter().map(|(number, words)| (*number, words.to_string()));
    assert_eq!(rows.collect::<Vec<_>>(), known.collect::<Vec<_>>());
}
