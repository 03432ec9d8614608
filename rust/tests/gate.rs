//! The gate `.ci/run` by itself, in a folder with a toolchain and tests that only
//! say what they were told to: what it counts, what it misses and what it
//! takes from its environment.

use std::fs;
use std::path::{Path, PathBuf};
use std::process::{Command, Output};
use turn::{copy_script, output, write_script};

mod turn; // scripts written and run one at a time

/// Tests that pass.
const RUST: &str = "echo 'test result: ok. 3 passed; 0 failed; 0 ignored'\n";
const PYTHON: &str = "echo 'Ran 2 tests in 0.1s'; echo; echo OK\n";

/// What the toolchain says where it passes once.
const PASSES: &str = "echo 'rt: ok; handles allowed: none; must-fail edits: 7 refused; all anew'
echo '1 passed, 0 failed'
";

/// A folder with the gate, an `rt` that passes once, and these tests.
fn folder(name: &str, rust: Option<&str>, python: Option<&str>) -> PathBuf {
    let folder = Path::new(env!("CARGO_TARGET_TMPDIR")).join(format!("gate-{name}"));
    let _ = fs::remove_dir_all(&folder);
    for part in ["bin", "rust", "bindings/python", ".ci"] {
        fs::create_dir_all(folder.join(part)).expect("a folder");
    }
    let gate = Path::new(env!("CARGO_MANIFEST_DIR")).join("../.ci/run");
    copy_script(&gate, &folder.join(".ci/run"));
    toolchain(&folder, PASSES);
    for (part, words) in [("rust", rust), ("bindings/python", python)] {
        if let Some(words) = words {
            fs::write(folder.join(part).join("run-tests"), words).expect("a file");
        }
    }
    folder
}

/// An `rt` that says this.
fn toolchain(folder: &Path, words: &str) {
    write_script(&folder.join("bin/rt"), &format!("#!/bin/sh\n{words}"));
}

fn gate(folder: &Path, variables: &[(&str, &str)]) -> Output {
    let path = format!("{}:{}", folder.join("bin").display(), std::env::var("PATH").unwrap());
    let mut command = Command::new("bash");
    command.arg(folder.join(".ci/run")).env("PATH", path);
    output(command.envs(variables.iter().copied()))
}

/// Whether the gate passes, and its last line.
fn verdict(name: &str, rust: Option<&str>, python: Option<&str>) -> (bool, String) {
    verdict_in(&folder(name, rust, python))
}

fn verdict_in(folder: &Path) -> (bool, String) {
    let output = gate(folder, &[]);
    let text = String::from_utf8(output.stdout).unwrap();
    (output.status.success(), text.lines().last().unwrap_or("").to_string())
}

fn last_line(passes: bool, line: &str) -> (bool, String) {
    (passes, line.to_string())
}

#[test]
fn counts_are_added_up() {
    let passing = verdict("passing", Some(RUST), Some(PYTHON));
    assert_eq!(passing, last_line(true, "6 passed, 0 failed"));
    let rust = "echo 'test result: FAILED. 2 passed; 1 failed; 0 ignored'\nexit 1\n";
    let failing = verdict("rust", Some(rust), Some(PYTHON));
    assert_eq!(failing, last_line(false, "5 passed, 1 failed"));
    let python =
        "echo 'Ran 9 tests in 0.1s'; echo 'FAILED (failures=1, errors=2, skipped=1)'; exit 1\n";
    let failing = verdict("python", Some(RUST), Some(python));
    assert_eq!(failing, last_line(false, "9 passed, 4 failed"));
    let skipped = "echo 'Ran 9 tests in 0.1s'; echo 'OK (skipped=1)'\n";
    let left_out = verdict("skipped", Some(RUST), Some(skipped));
    assert_eq!(left_out, last_line(false, "12 passed, 1 failed"));
}

/// The toolchain's gate by its status, its own count, and the edits that it calls bad.
#[test]
fn the_toolchain_fails() {
    let folder = folder("toolchain", Some(RUST), Some(PYTHON));
    for (words, passed, failed) in [
        ("echo 'rt: FAILED: one two'\necho '3 passed, 2 failed'\nexit 1\n", 8, 2),
        ("echo '0 passed, 1 failed'\nexit 2\n", 5, 1),
        ("echo '3 passed, 0 failed'\nexit 1\n", 8, 1),
        ("echo '3 passed, 0 failed (one alone: not the gate)'\n", 5, 1),
        ("echo 'rt: killed'\nexit 137\n", 5, 1),
        ("true\n", 5, 1),
    ] {
        toolchain(&folder, words);
        let line = format!("{passed} passed, {failed} failed");
        assert_eq!(verdict_in(&folder), last_line(false, &line), "{words}");
    }
    for (said, bad) in [
        ("none; must-fail edits: 7 refused, 2 bad; all anew", 2),
        ("none; must-fail edits: 7 refused, 3 of them only by a limit, 12 bad; all anew", 12),
        ("none; must-fail edits: 0 refused, 1 bad", 1),
    ] {
        toolchain(
            &folder,
            &format!("echo 'rt: ok; handles allowed: {said}'\necho '1 passed, 0 failed'\n"),
        );
        let line = format!("6 passed, {bad} failed");
        assert_eq!(verdict_in(&folder), last_line(false, &line), "{said}");
    }
    for said in [
        "none; all anew",
        "Threads, Wait; must-fail edits: 7 refused, 3 of them only by a limit; all anew",
    ] {
        toolchain(
            &folder,
            &format!("echo 'rt: ok; handles allowed: {said}'\necho '1 passed, 0 failed'\n"),
        );
        assert_eq!(verdict_in(&folder), last_line(true, "6 passed, 0 failed"), "{said}");
    }
}

/// It is called once, at the top, as `rt ci` and no more, before all else, on the files as they
/// are.
#[test]
fn the_toolchain_is_called_plainly() {
    let folder = folder("plainly", Some(&format!("echo tests >>asked\n{RUST}")), Some(PYTHON));
    let kept = ["crates/one/out/kept", "crates/one/must-fail/two.edit", "target/kept"];
    for name in kept {
        let file = folder.join(name);
        fs::create_dir_all(file.parent().expect("its folder")).expect("a folder");
        fs::write(file, "1").expect("a file");
    }
    let there = kept.map(|name| format!("[ -f {name} ] || exit 1\n")).concat();
    toolchain(&folder, &format!("echo \"$PWD: $*\" >>asked\n{there}{PASSES}"));
    assert_eq!(verdict_in(&folder), last_line(true, "6 passed, 0 failed"));
    let asked = fs::read_to_string(folder.join("asked")).expect("what was asked");
    let top = folder.canonicalize().expect("the folder");
    assert_eq!(asked, format!("{}: ci\ntests\n", top.display()));
    assert!(kept.iter().all(|name| folder.join(name).is_file()));
}

#[test]
fn what_is_missing_fails() {
    let missing = verdict("missing", None, None);
    assert_eq!(missing, last_line(false, "1 passed, 2 failed"));
    let silent = verdict("silent", Some("true\n"), Some("true\n"));
    assert_eq!(silent, last_line(false, "1 passed, 2 failed"));
    let [rust, python] = [RUST, PYTHON].map(|tests| format!("{tests}exit 1\n"));
    let ended = verdict("ended", Some(&rust), Some(&python));
    assert_eq!(ended, last_line(false, "6 passed, 2 failed"));
}

/// Nothing that would lower a count, or test something else, reaches the tests.
#[test]
fn the_environment_does_not_choose_what_is_tested() {
    let redirecting = [
        ("BOOKS", "0"),
        ("SCANS", "0"),
        ("PROVED_CRATES", "/elsewhere"),
        ("AUCTION_LIB_DIR", "/elsewhere"),
        ("AUCTION_LIBRARY", "/elsewhere"),
        ("AUCTION_PRINT", "/bin/true"),
        ("FAMILY_PRINT", "/bin/true"),
        ("CASH_PRINT", "/bin/true"),
        ("RATTLE_HOME", "/elsewhere"),
        ("RT_ALLOW_C", "1"),
        ("RT_BACKEND", "rattle"),
        ("RT_SECONDS", "1"),
        ("CARGO_TARGET_DIR", "/elsewhere"),
        ("CARGO_PROFILE_RELEASE_OVERFLOW_CHECKS", "false"),
        ("RUSTFLAGS", "--cfg elsewhere"),
        ("RUST_TEST_THREADS", "1"),
        ("PYTHONPATH", "/elsewhere"),
    ];
    let words = [RUST, PYTHON].map(|tests| format!("{tests}env\n"));
    let [rust, python] = [Some(&*words[0]), Some(&*words[1])];
    let output = gate(&folder("environment", rust, python), &redirecting);
    assert!(output.status.success());
    let seen = String::from_utf8(output.stdout).unwrap();
    for (name, _) in redirecting {
        let set = seen.lines().any(|line| line.starts_with(&format!("{name}=")));
        assert!(!set, "{name} reaches the tests");
    }
    // What only speeds is left.
    let output = gate(&folder("speed", rust, python), &[("RT_JOBS", "2")]);
    assert!(String::from_utf8(output.stdout).unwrap().contains("\nRT_JOBS=2\n"));
}
