//! The script `build` by itself, in a folder with a few crates and a toolchain that only
//! writes down what it is asked: what it tells, when it is silent, how it fails, and two
//! builds at once.

use std::fs;
use std::io::Write;
use std::ops::Deref;
use std::path::{Path, PathBuf};
use std::process::{Child, Command, Output, Stdio};
use turn::{copy_script, output, start, write_script};

mod turn; // scripts written and run one at a time

/// Proves at once, but for the crate that a file `broken` names, and never twice at the
/// same time; says nothing of a crate that it has built. Each program prints one line; the
/// library has one call, and is compiled each time.
const RT: &str = r#"#!/bin/sh
[ "$1" != version ] || { echo kit; exit 0; }
name=$(basename "$PWD")
cd "$(dirname "$0")/.." || exit 1
mkdir busy || { echo "two at once" >>spoilt; exit 1; }
trap 'rmdir busy' EXIT
echo "$*" "$name" >>asked
out=crates/$name/out
mkdir -p "$out"
if [ "$name" = "$(cat broken 2>/dev/null)" ]; then echo "fn $name::one: not proved"; exit 1; fi
if [ "$1 $name" = "lib exports" ]; then
    echo 'int auction_one(void) { return 1; }' | cc -fPIC -c -x c - -o one.o
    rm -f "$out/libexports.a"
    ar rc "$out/libexports.a" one.o 2>/dev/null
    echo "logic=proved functions=1"
    exit
fi
program() { printf '#!/bin/sh\necho %s\n' "$1" >"$out/$name"; chmod +x "$out/$name"; }
if ! [ -f "$out/stamp" ]; then
    sleep 0.1
    touch "$out/stamp"
    case "$1 $name" in
    "run auction_print") program sheet ;;
    "run family_print") program report ;;
    "run cash_print") program cash ;;
    esac
    echo "logic=proved functions=1"
fi
[ "$1" != run ] || "$out/$name"
"#;

const CRATES: &str = "# crates
auction_print: middle low
family_print: middle low
cash_print: middle low
exports staticlib: middle low
middle: low
low:
";

/// A folder that is gone when it is dropped. It stands outside of the repository, which has
/// no other list of crates.
struct Folder(PathBuf);

impl Deref for Folder {
    type Target = Path;

    fn deref(&self) -> &Path {
        &self.0
    }
}

impl Drop for Folder {
    fn drop(&mut self) {
        let _ = fs::remove_dir_all(&self.0);
    }
}

/// A folder of its own with the script, the crates and the toolchain.
fn folder(name: &str) -> Folder {
    let unique = format!("auction-build-{}-{name}", std::process::id());
    let folder = Folder(std::env::temp_dir().join(unique));
    let _ = fs::remove_dir_all(&*folder);
    fs::create_dir_all(folder.join("bin")).expect("a folder");
    fs::create_dir_all(folder.join("crates/low/must-fail")).expect("a folder");
    for script in ["build", "auction-print", "family-print", "cash-print"] {
        let source = Path::new(env!("CARGO_MANIFEST_DIR")).join("..").join(script);
        copy_script(&source, &folder.join(script));
    }
    write_script(&folder.join("bin/rt"), RT);
    write(&folder, "crates.txt", CRATES);
    for (name, root) in [
        ("low", "lib"),
        ("middle", "lib"),
        ("exports", "lib"),
        ("auction_print", "main"),
        ("family_print", "main"),
        ("cash_print", "main"),
    ] {
        fs::create_dir_all(folder.join("crates").join(name).join("src")).expect("a folder");
        write(&folder, &format!("crates/{name}/src/{root}.rt"), "1");
    }
    folder
}

fn write(folder: &Path, name: &str, text: &str) {
    fs::write(folder.join(name), text).unwrap_or_else(|error| panic!("{name}: {error}"));
}

fn started(folder: &Path, words: &[&str]) -> Child {
    started_with(folder, words, Stdio::null())
}

fn started_with(folder: &Path, words: &[&str], input: Stdio) -> Child {
    let path = format!("{}:{}", folder.join("bin").display(), std::env::var("PATH").unwrap());
    let mut command = Command::new(folder.join(words[0]));
    command.args(&words[1..]).env("PATH", path).current_dir("/").stdin(input);
    start(command.stdout(Stdio::piped()).stderr(Stdio::piped()))
}

fn ended(running: Child) -> (Option<i32>, String, String) {
    let Output { status, stdout, stderr } = running.wait_with_output().expect("it ends");
    let text = |bytes| String::from_utf8(bytes).expect("text");
    (status.code(), text(stdout), text(stderr))
}

fn run(folder: &Path, words: &[&str]) -> (Option<i32>, String, String) {
    ended(started(folder, words))
}

const SILENT: (Option<i32>, String, String) = (Some(0), String::new(), String::new());

/// What was told, without the seconds.
fn told(folder: &Path, words: &[&str]) -> Vec<String> {
    let (code, out, told) = run(folder, words);
    assert_eq!((code, &*out), (Some(0), ""), "{told}");
    let in_seconds = |line: &str| line.split(" in ").next().unwrap_or("").to_string();
    told.lines().map(in_seconds).collect()
}

#[test]
fn each_crate_is_told_and_then_nothing() {
    let folder = folder("told");
    let program =
        ["1 of 3: low, proved", "2 of 3: middle, proved", "3 of 3: auction_print, proved"];
    assert_eq!(told(&folder, &["build", "program"]), program);
    assert_eq!(run(&folder, &["build", "program"]), SILENT);
    let library = ["1 of 3: low, at hand", "2 of 3: middle, at hand", "3 of 3: exports, proved"];
    assert_eq!(told(&folder, &["build", "library"]), library);
    assert_eq!(run(&folder, &["build", "library", "program"]), SILENT);
    let families =
        ["1 of 3: low, at hand", "2 of 3: middle, at hand", "3 of 3: family_print, proved"];
    assert_eq!(told(&folder, &["build", "families"]), families);
    assert_eq!(run(&folder, &["build", "library", "families", "program"]), SILENT);
    let cash = ["1 of 3: low, at hand", "2 of 3: middle, at hand", "3 of 3: cash_print, proved"];
    assert_eq!(told(&folder, &["build", "cash"]), cash);
    assert_eq!(run(&folder, &["build", "library", "families", "cash", "program"]), SILENT);
    let files = ["libauction.a", "libauction.so"].map(|name| folder.join("target/lib").join(name));
    assert!(files.iter().all(|file| file.is_file()));
    let left = fs::read_dir(folder.join("target")).expect("target").filter_map(Result::ok);
    assert!(left.into_iter().all(|it| !it.file_name().to_string_lossy().starts_with("build.")));
}

#[test]
fn what_changed_is_built_again() {
    let folder = folder("changed");
    let both = ["build", "library", "program"];
    assert_eq!(told(&folder, &both).len(), 4);
    // An edit that must fail is no source.
    write(&folder, "crates/low/must-fail/one.edit", "1");
    assert_eq!(run(&folder, &both), SILENT);
    write(&folder, "crates/low/src/lib.rt", "2");
    assert_eq!(told(&folder, &both).len(), 4);
    // What the toolchain leaves is no source either.
    write(&folder, "crates/low/out/kept", "1");
    assert_eq!(run(&folder, &both), SILENT);
    // A file that is gone, or is not the one that was built, comes from the toolchain again.
    let program = folder.join("target/bin/auction_print");
    let built = fs::read(&program).expect("a program");
    fs::remove_file(&program).expect("it was there");
    assert_eq!(told(&folder, &both).last().unwrap(), "3 of 3: auction_print, at hand");
    assert_eq!(fs::read(&program).expect("a program"), built);
    write(&folder, "target/lib/libauction.so", "no library");
    assert_eq!(told(&folder, &both).last().unwrap(), "3 of 3: exports, proved");
    write_script(&program, "#!/bin/sh\necho another\n");
    assert_eq!(told(&folder, &both).last().unwrap(), "3 of 3: auction_print, at hand");
    assert_eq!(fs::read(&program).expect("a program"), built);
    assert_eq!(run(&folder, &both), SILENT);
    // Each program by itself.
    assert_eq!(told(&folder, &["build", "families"]).len(), 3);
    write_script(&folder.join("target/bin/family_print"), "#!/bin/sh\necho another\n");
    assert_eq!(run(&folder, &both), SILENT);
    let families = told(&folder, &["build", "families"]);
    assert_eq!(families.last().unwrap(), "3 of 3: family_print, at hand");
    assert_eq!(run(&folder, &["family-print"]), (Some(0), "report\n".into(), String::new()));
}

/// A command builds its own program and no other, and runs it from any folder.
#[test]
fn each_command_runs_its_program() {
    for (command, what, printed) in [
        ("auction-print", "program", "sheet\n"),
        ("family-print", "families", "report\n"),
        ("cash-print", "cash", "cash\n"),
    ] {
        let folder = folder(command);
        let program = command.replace('-', "_");
        let (code, out, told) = run(&folder, &[command]);
        assert_eq!((code, &*out), (Some(0), printed), "{told}");
        assert!(told.contains(&format!("3 of 3: {program}, proved")), "{told}");
        let built = fs::read_dir(folder.join("target/bin")).expect("programs");
        let built: Vec<_> = built.map(|it| it.expect("a program").file_name()).collect();
        assert_eq!(built, [&*program]);
        for words in [&[command][..], &["build", "run", what]] {
            assert_eq!(run(&folder, words), (Some(0), printed.into(), String::new()));
        }
    }
}

/// What stands on standard input is the program's, also where a toolchain that would read it
/// builds the program first.
#[test]
fn a_command_leaves_its_input_to_the_program() {
    let folder = folder("input");
    let reading = RT.replace("sleep 0.1", "cat >/dev/null");
    let reading = reading.replace(r"\necho %s\n", r"\ncat # %s\n");
    write_script(&folder.join("bin/rt"), &reading);
    for _ in 0..2 {
        let mut child = started_with(&folder, &["cash-print"], Stdio::piped());
        child.stdin.take().expect("piped").write_all(b"book").expect("it reads");
        let (code, out, told) = ended(child);
        assert_eq!((code, &*out), (Some(0), "book"), "{told}");
    }
}

#[test]
fn a_failure_is_told_in_the_words_of_the_toolchain() {
    let folder = folder("failure");
    write(&folder, "broken", "middle");
    let (code, out, told) = run(&folder, &["auction-print"]);
    assert_eq!((code, &*out), (Some(1), ""));
    assert!(told.ends_with("2 of 3: middle, FAILED:\nfn middle::one: not proved\n"), "{told}");
    fs::remove_file(folder.join("broken")).expect("it was there");
    let (code, out, told) = run(&folder, &["auction-print"]);
    assert_eq!((code, &*out), (Some(0), "sheet\n"), "{told}");
    assert_eq!(run(&folder, &["auction-print"]), (Some(0), "sheet\n".into(), String::new()));
}

/// A crate that is not listed is not built in silence, and what was built of it before does
/// not stand in.
#[test]
fn a_crate_that_is_not_listed() {
    let folder = folder("unlisted");
    write(&folder, "crates.txt", &CRATES.replace("family_print", "another"));
    fs::create_dir_all(folder.join("crates/family_print/out")).expect("a folder");
    write(&folder, "crates/family_print/out/family_print", "an older one");
    for _ in 0..2 {
        let (code, out, told) = run(&folder, &["family-print"]);
        assert_eq!((code, &*out), (Some(1), ""));
        assert!(told.contains("no target/bin/family_print came of it"), "{told}");
    }
}

#[test]
fn wrong_words_and_a_missing_toolchain() {
    let folder = folder("words");
    for words in [&["build", "everything"][..], &["build", "run", "everything"]] {
        let (code, _, told) = run(&folder, words);
        assert_eq!(
            (code, told.contains("expected program, families, cash or library")),
            (Some(2), true),
            "{told}"
        );
    }
    // A library is not run.
    for words in [&["build"][..], &["build", "run"], &["build", "run", "library"]] {
        let (code, _, told) = run(&folder, words);
        assert_eq!(code, Some(2));
        assert!(told.starts_with("./build program|families|cash|library.."), "{told}");
        assert!(told.contains("\n./build run program|families|cash: "), "{told}");
    }
    let mut command = Command::new("/bin/sh");
    fs::remove_file(folder.join("bin/rt")).expect("it was there");
    for tool in ["awk", "cat", "cut", "dirname", "find", "sha256sum", "sort", "uname"] {
        let found = output(Command::new("sh").args(["-c", &format!("command -v {tool}")]));
        let path = String::from_utf8(found.stdout).expect("a path");
        std::os::unix::fs::symlink(path.trim(), folder.join("bin").join(tool)).expect(tool);
    }
    let command = command.arg(folder.join("build")).arg("program").env("PATH", folder.join("bin"));
    let answer = output(command);
    let told = String::from_utf8(answer.stderr).expect("text");
    assert_eq!(told, "build: there is no rt on the path, and a build needs it\n");
    assert_eq!(answer.status.code(), Some(1));
}

/// Ten at once: each crate is proved once, and each build succeeds.
#[test]
fn builds_at_once_do_not_spoil_each_other() {
    let folder = folder("at-once");
    let words: [(&[&str], &str); 5] = [
        (&["build", "library"], ""),
        (&["auction-print"], "sheet\n"),
        (&["build", "program"], ""),
        (&["family-print"], "report\n"),
        (&["cash-print"], "cash\n"),
    ];
    let running: Vec<Child> = (0..10).map(|index| started(&folder, words[index % 5].0)).collect();
    for (index, child) in running.into_iter().enumerate() {
        let (code, out, told) = ended(child);
        assert_eq!((code, &*out), (Some(0), words[index % 5].1), "{told}");
    }
    assert!(!folder.join("spoilt").exists(), "two toolchains at once");
    let asked = fs::read_to_string(folder.join("asked")).expect("what was asked");
    assert_eq!(asked.matches("lib exports\n").count(), 1, "{asked}");
    assert_eq!(asked.matches("run auction_print\n").count(), 1, "{asked}");
    assert_eq!(asked.matches("run family_print\n").count(), 1, "{asked}");
    assert_eq!(asked.matches("run cash_print\n").count(), 1, "{asked}");
}
