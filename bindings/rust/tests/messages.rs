//! What the example `sheet` says where something is wrong: a message of one line, and
//! nothing of Rust.

use std::fs::{self, File};
use std::os::fd::OwnedFd;
use std::os::unix::net::UnixStream;
use std::path::{Path, PathBuf};
use std::process::{Command, Output, Stdio};

/// The example, which cargo builds before the tests, beside their folder.
fn example() -> Command {
    let test = std::env::current_exe().expect("this program");
    let folder = test.ancestors().nth(2).expect("the folder of the profile");
    let mut command = Command::new(folder.join("examples/sheet"));
    command.env("RUST_BACKTRACE", "1");
    command
}

fn sample(name: &str) -> PathBuf {
    Path::new(env!("CARGO_MANIFEST_DIR")).join("../../samples").join(name)
}

/// The exit code, what is printed and what is complained.
fn ended(output: Output) -> (Option<i32>, String, String) {
    let text = |bytes| String::from_utf8(bytes).expect("text");
    (output.status.code(), text(output.stdout), text(output.stderr))
}

fn run(file: &Path) -> (Option<i32>, String, String) {
    ended(example().arg(file).output().expect("the example starts"))
}

#[test]
fn a_sheet_is_printed() {
    let sheet = fs::read_to_string(sample("S5.sheet")).expect("a sheet");
    assert_eq!(run(&sample("S5.book")), (Some(0), sheet, String::new()));
}

#[test]
fn what_cannot_be_read() {
    let (nowhere, folder) = (sample("nowhere.book"), sample(""));
    for (file, reason) in [(nowhere, "No such file or directory"), (folder, "Is a directory")] {
        let (code, printed, told) = run(&file);
        assert_eq!((code, &*printed), (Some(2), ""));
        assert!(told.starts_with(&format!("sheet: {}: {reason}", file.display())), "{told}");
        assert_eq!(told.lines().count(), 1);
    }
    let usage = ended(example().output().expect("the example starts"));
    assert_eq!(usage, (Some(2), String::new(), "sheet: usage: sheet BOOK\n".into()));
}

#[test]
fn what_is_refused() {
    let empty = Path::new(env!("CARGO_TARGET_TMPDIR")).join("empty.book");
    fs::write(&empty, b"").expect("a file");
    for (file, refusal) in
        [(empty, auction::Refusal::Length), (sample("refused-3.book"), auction::Refusal::Chain)]
    {
        let told = format!("sheet: {}: {refusal}\n", file.display());
        assert_eq!(run(&file), (Some(1), format!("refused;{}\n", refusal.number()), told));
    }
}

/// A standard output that is closed from the start, and one that is thrown away.
#[test]
fn no_standard_output() {
    let through_shell = |redirected: &str| {
        let mut shell = Command::new("sh");
        shell.arg("-c").arg(format!(r#""$0" "$1" {redirected}"#));
        shell.arg(example().get_program()).arg(sample("S5.book"));
        ended(shell.output().expect("the shell starts"))
    };
    let told = "sheet: there is no standard output to write to\n";
    assert_eq!(through_shell(">&-"), (Some(2), String::new(), told.into()));
    assert_eq!(through_shell(">/dev/null"), (Some(0), String::new(), String::new()));
}

/// A device that is full, and a connection that nobody reads.
#[test]
fn what_cannot_be_written() {
    let full = File::options().write(true).open("/dev/full").expect("the device");
    let (unread, reader) = UnixStream::pair().expect("two sockets");
    drop(reader);
    for out in [Stdio::from(full), Stdio::from(OwnedFd::from(unread))] {
        let mut command = example();
        let (code, _, told) =
            ended(command.arg(sample("S5.book")).stdout(out).output().expect("it"));
        assert_eq!(code, Some(2));
        assert!(told.starts_with("sheet: cannot write standard output: "), "{told}");
        assert_eq!(told.lines().count(), 1);
    }
}
