//! The sample files.

// Not every test asks for all of them.
#![allow(dead_code)]

use std::fs;
use std::path::{Path, PathBuf};

fn directory() -> PathBuf {
    Path::new(env!("CARGO_MANIFEST_DIR")).join("../samples")
}

/// The names of all books, without their ending.
pub fn names() -> Vec<String> {
    names_ending("book")
}

/// The names of all lists, without their ending.
pub fn list_names() -> Vec<String> {
    names_ending("list")
}

fn names_ending(ending: &str) -> Vec<String> {
    let entries = fs::read_dir(directory()).expect("the samples");
    let paths = entries.map(|entry| entry.expect("an entry").path());
    let files = paths.filter(|path| path.extension().is_some_and(|other| other == ending));
    let mut names: Vec<String> =
        files.map(|path| path.file_stem().unwrap().to_str().unwrap().to_string()).collect();
    names.sort();
    names
}

pub fn path(name: &str, ending: &str) -> PathBuf {
    directory().join(format!("{name}.{ending}"))
}

pub fn sample(name: &str, ending: &str) -> Vec<u8> {
    let path = path(name, ending);
    fs::read(&path).unwrap_or_else(|error| panic!("{}: {error}", path.display()))
}
