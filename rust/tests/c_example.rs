//! The library from C and C++: `examples/clear.c` and `examples/range.c` compiled by `cc`,
//! linked with the proved library and run on the samples and on what is no book or no list;
//! the header by itself.
//! Compiled with the feature `proved` only.

mod sample_files;

use sample_files::{list_names, names, path, sample};
use std::fs::{self, File};
use std::path::{Path, PathBuf};
use std::process::{Command, Output};

fn repository() -> PathBuf {
    Path::new(env!("CARGO_MANIFEST_DIR")).join("..")
}

fn scratch(name: &str) -> PathBuf {
    Path::new(env!("CARGO_TARGET_TMPDIR")).join(name)
}

/// A compiler whose warnings all count, with the header within reach.
fn compiler(standard: &str) -> Command {
    let mut cc = Command::new("cc");
    cc.args([standard, "-pedantic", "-Wall", "-Wextra", "-Werror", "-O2", "-I"]);
    cc.arg(repository().join("include"));
    cc
}

fn compiled(name: &str) -> PathBuf {
    let program = scratch(name);
    let mut cc = compiler("-std=c99");
    cc.arg("-o").arg(&program).arg(repository().join(format!("examples/{name}.c")));
    cc.arg(repository().join("target/lib/libauction.a"));
    assert!(cc.status().expect("cc starts").success(), "{cc:?}");
    program
}

fn cleared(program: &Path, book: &Path) -> Output {
    Command::new(program).arg(book).output().expect("the example starts")
}

#[test]
fn the_c_example_prints_the_sheets() {
    let program = compiled("clear");
    for name in names() {
        let output = cleared(&program, &path(&name, "book"));
        assert_eq!(output.stdout, sample(&name, "sheet"), "{name}");
        assert_eq!(output.status.code(), Some(name.starts_with("refused").into()), "{name}");
    }
    let told = String::from_utf8(cleared(&program, &path("S5", "book")).stderr).unwrap();
    let hours = "hour 1: price 3000, traded 100\nhour 1 without blocks: price 4000\n";
    let [families, cash] = ["families", "cash"].map(|ending| sample("S5", ending));
    let texts = String::from_utf8([families, cash].concat()).unwrap();
    assert_eq!(told, format!("{hours}{texts}"));
    what_is_no_book(&program);
    no_standard_output(&program);
}

fn what_is_no_book(program: &Path) {
    let empty = scratch("empty.book");
    fs::write(&empty, b"").expect("a file");
    let output = cleared(program, &empty);
    assert_eq!((output.status.code(), &output.stdout[..]), (Some(1), &b"refused;1\n"[..]));
    for (book, reason) in [
        (path("no-such-sample", "book"), "No such file or directory"),
        (repository().join("samples"), "Is a directory"),
    ] {
        let output = cleared(program, &book);
        let complaint = format!("clear: {}: {reason}\n", book.display());
        assert_eq!(String::from_utf8(output.stderr).unwrap(), complaint);
        assert_eq!((output.status.code(), output.stdout.len()), (Some(2), 0));
    }
}

fn no_standard_output(program: &Path) {
    let mut shell = Command::new("sh");
    shell.args(["-c", "exec \"$0\" \"$1\" >&-"]).arg(program).arg(path("S5", "book"));
    let mut full = Command::new(program);
    full.arg(path("S5", "book")).stdout(File::options().write(true).open("/dev/full").expect("it"));
    for mut command in [shell, full] {
        let output = command.output().expect("the example starts");
        let told = String::from_utf8(output.stderr).unwrap();
        assert_eq!(output.status.code(), Some(2));
        assert!(told.contains("\nclear: cannot write standard output: "), "{told}");
    }
}

#[test]
fn the_c_example_prints_price_ranges() {
    let program = compiled("range");
    for name in list_names() {
        let output = cleared(&program, &path(&name, "list"));
        assert_eq!(output.stdout, sample(&name, "range"), "{name}");
        assert_eq!(output.status.code(), Some(name.starts_with("refused").into()), "{name}");
    }
    // A longer file is not cut.
    let long = scratch("long.list");
    for (bytes, code) in [(0, 0), (16, 0), (4_095, 1), (4_096, 0), (4_097, 1), (4_112, 1)] {
        fs::write(&long, &[0, 0, 0, 1].repeat(1_028)[..bytes]).expect("a file");
        assert_eq!(cleared(&program, &long).status.code(), Some(code), "{bytes} bytes");
    }
    let nowhere = cleared(&program, &path("no-such-sample", "list"));
    assert_eq!((nowhere.status.code(), nowhere.stdout.len()), (Some(2), 0));
}

/// A program of the header alone, in C99 and in C++.
#[test]
fn the_header_stands_by_itself() {
    let text = "#include \"auction.h\"\n#include \"auction.h\"\n\
        int main(void) { return (int)auction_read((const uint8_t *)\"\", 0) - AUCTION_REFUSED_LENGTH; }\n";
    let source = scratch("header.c");
    fs::write(&source, text).expect("a file");
    for (standard, language) in [("-std=c99", "c"), ("-std=c++11", "c++")] {
        let program = scratch(&format!("header-{language}"));
        let mut cc = compiler(standard);
        cc.args(["-x", language]).arg(&source).args(["-x", "none", "-o"]).arg(&program);
        cc.arg(repository().join("target/lib/libauction.a"));
        assert!(cc.status().expect("cc starts").success(), "{cc:?}");
        assert!(Command::new(&program).status().expect("it starts").success(), "{language}");
    }
}
