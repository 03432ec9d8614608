//! From the proved source to the by-value twin. A Rattle source file is Rust but
//! for its contracts; so the twin is its text with
//!
//! - the contracts, all that is ghost and the words to the prover left out,
//! - the crates as modules of this package,
//! - `Clone` and `Copy` derived for each type, and what else it derives but `Drop`,
//!   which plain Rust has not,
//! - the counters of [`count`](super::count) in `explore`.
//!
//! The program `twin_source` writes the files and compares them with the source.

use std::path::{Path, PathBuf};
use std::{fs, io};

/// The proved crates that a clearing runs.
pub const CRATES: [&str; 20] = [
    "records", "fields", "chains", "book", "orders", "pricing", "shares", "places", "shift",
    "tables", "guess", "order", "branches", "rivals", "search", "passes", "roots", "setup",
    "result", "clearing",
];

/// A file of the twin: where it stands in `src/twin/by_value`, and its text.
pub struct TwinFile {
    pub path: PathBuf,
    pub text: String,
}

/// The twin of the proved crates in a folder.
pub fn twin_of(crates: &Path) -> io::Result<Vec<TwinFile>> {
    let mut files = Vec::new();
    for name in CRATES {
        for entry in fs::read_dir(crates.join(name).join("src"))? {
            let source = entry?.path();
            if source.extension().is_some_and(|kind| kind == "rt") {
                files.push(twin_file(name, &source)?);
            }
        }
    }
    files.sort_by(|one, other| one.path.cmp(&other.path));
    Ok(files)
}

/// The files of the twin that are not those of the proved crates, each with the
/// first line that differs.
pub fn differences(crates: &Path, twin: &Path) -> io::Result<Vec<(PathBuf, usize)>> {
    let mut found = Vec::new();
    for TwinFile { path, text } in twin_of(crates)? {
        let there = fs::read_to_string(twin.join(&path)).unwrap_or_default();
        if there != text {
            let same = text.lines().zip(there.lines()).take_while(|(one, other)| one == other);
            found.push((path, same.count() + 1));
        }
    }
    Ok(found)
}

fn twin_file(name: &str, source: &Path) -> io::Result<TwinFile> {
    let stem = source.file_stem().map_or("".into(), |stem| stem.to_string_lossy());
    let path = match &*stem {
        "lib" => PathBuf::from(format!("{name}.rs")),
        module => PathBuf::from(format!("{name}/{module}.rs")),
    };
    let head = format!("// Written by `twin_source` from crates/{name}/src/{stem}.rt.\n");
    Ok(TwinFile { path, text: head + &plain(name, &fs::read_to_string(source)?) })
}

/// The text of a source file of a crate as plain Rust.
pub fn plain(name: &str, source: &str) -> String {
    let code = without_contracts(source);
    let lines = with_counters(code).into_iter().map(|line| plain_line(name, line));
    lines.collect()
}

/// What stands before an item and is not run: words to the prover.
const ASIDE: [&str; 3] = ["ghost use ", "#![tactic(", "#[tactic("];

/// What is said and not run: contracts, ghost fields and ghost members. Each begins on a line of
/// its own and ends with the brace that closes it.
const SAID: [&str; 3] = ["requires ", "ensures ", "ghost "];

/// The lines that are run, and no two empty ones in a row.
fn without_contracts(source: &str) -> Vec<&str> {
    let mut code = Vec::new();
    let mut open = 0;
    for line in source.lines() {
        let words = line.trim_start();
        let begins = |with: &[&str]| with.iter().any(|one| words.starts_with(one));
        let is_aside = open == 0 && begins(&ASIDE);
        if open > 0 || (begins(&SAID) && !is_aside) {
            open += line.matches('{').count();
            open -= line.matches('}').count();
            continue;
        }
        let is_gap = words.is_empty() && code.last().is_some_and(|last: &&str| last.is_empty());
        if !is_aside && !is_gap {
            code.push(line);
        }
    }
    code
}

/// Counts a node where the body of `explore` begins, and a cut one where it
/// first returns, which is after its test.
fn with_counters(code: Vec<&str>) -> Vec<&str> {
    let Some(explore) = code.iter().position(|line| line.starts_with("pub fn explore(")) else {
        return code;
    };
    let mut lines = code;
    let from = |start: usize, wanted: &str, lines: &[&str]| {
        let found = lines[start..].iter().position(|line| line.trim() == wanted);
        start + found.unwrap_or_else(|| panic!("explore has no line `{wanted}`"))
    };
    let body = from(explore, "{", &lines) + 1;
    lines.insert(body, "    crate::twin::count::node();");
    let cut = from(body, "return best;", &lines);
    lines.insert(cut, "        crate::twin::count::cut();");
    lines
}

/// One line, with the crates' paths as modules and the types as values.
fn plain_line(name: &str, line: &str) -> String {
    let home = "use crate::twin::by_value::";
    if let Some(derived) = line.strip_prefix("#[derive(").and_then(|rest| rest.strip_suffix(")]")) {
        let others = derived.split(", ").filter(|one| !["Clone", "Copy", "Drop"].contains(one));
        let all: Vec<&str> = ["Clone", "Copy"].into_iter().chain(others).collect();
        return format!("#[derive({})]\n", all.join(", "));
    }
    if let Some(path) = line.strip_prefix("use crate::") {
        return format!("{home}{name}::{path}\n");
    }
    if let Some(path) = line.strip_prefix("use ").filter(|path| !path.starts_with("std::")) {
        return format!("{home}{path}\n");
    }
    format!("{line}\n")
}
