//! The README's commands and examples as they are written, in a copy of the
//! repository, with the program and the libraries at hand. Compiled with the feature
//! `proved` only.
//!
//! A block of code begins with a comment that names its file; a block of commands may
//! be followed by a block of what they print.

use std::fs;
use std::path::{Path, PathBuf};
use std::process::{Command, Stdio};

/// A fenced block: its language and its lines.
struct Block {
    language: String,
    text: String,
}

fn repository() -> PathBuf {
    Path::new(env!("CARGO_MANIFEST_DIR")).join("..")
}

fn blocks() -> Vec<Block> {
    let readme = fs::read_to_string(repository().join("README.md")).expect("the README");
    let mut blocks: Vec<Block> = Vec::new();
    let mut inside = false;
    for line in readme.lines() {
        if let Some(language) = line.strip_prefix("```") {
            inside = !inside;
            if inside {
                blocks.push(Block { language: language.into(), text: String::new() });
            }
        } else if inside {
            let block = blocks.last_mut().expect("inside a block");
            block.text += &format!("{line}\n");
        }
    }
    blocks
}

/// Copies a folder without what is built in it.
fn copy(from: &Path, to: &Path) {
    fs::create_dir_all(to).expect("a folder");
    for entry in fs::read_dir(from).expect("a folder") {
        let entry = entry.expect("an entry");
        let (path, name) = (entry.path(), entry.file_name());
        if ["target", "out", ".git", "__pycache__"].iter().any(|built| name == *built) {
            continue;
        }
        if path.is_dir() {
            copy(&path, &to.join(name));
        } else {
            fs::copy(&path, to.join(name)).expect("a file");
        }
    }
}

/// A copy of the repository outside of it, gone when it is dropped.
struct Copy(PathBuf);

impl Copy {
    fn new() -> Copy {
        let folder = std::env::temp_dir().join(format!("auction-readme-{}", std::process::id()));
        copy(&repository(), &folder);
        for built in ["bin", "lib", "built"] {
            copy(&repository().join("target").join(built), &folder.join("target").join(built));
        }
        Copy(folder)
    }

    /// Writes a block of code to the file that its first line names.
    fn write(&self, code: &str) {
        let first = code.lines().next().expect("a first line");
        let name = first.split_whitespace().nth(1).expect("the name of a file");
        let file = self.0.join(name);
        fs::create_dir_all(file.parent().expect("its folder")).expect("a folder");
        fs::write(file, code).expect("a file");
    }

    /// What commands print. They succeed and do not complain.
    fn run(&self, commands: &str) -> String {
        let mut shell = Command::new("sh");
        shell.args(["-e", "-c", commands]).current_dir(&self.0).stdin(Stdio::null());
        let output = shell.env_remove("CARGO_TARGET_DIR").output().expect("a shell");
        let complaint = String::from_utf8_lossy(&output.stderr);
        assert_eq!((output.status.code(), &*complaint), (Some(0), ""), "{commands}");
        String::from_utf8(output.stdout).expect("text")
    }
}

impl Drop for Copy {
    fn drop(&mut self) {
        let _ = fs::remove_dir_all(&self.0);
    }
}

#[test]
fn the_readme_runs_as_it_is_written() {
    let copy = Copy::new();
    let (mut printed, mut met) = (String::new(), Vec::new());
    for block in blocks() {
        match block.language.as_str() {
            "sh" => printed = copy.run(&block.text),
            "text" => assert_eq!(printed, block.text),
            _ => copy.write(&block.text),
        }
        met.push(block.language);
    }
    let example = |language| [language, "sh", "text"].map(String::from);
    for language in ["c", "rust", "python"] {
        let found = met.windows(3).any(|three| three == example(language));
        assert!(found, "no example in {language}");
    }
    // What the README shows of S5: the sheet in part, the cash sheet whole.
    let sheet = fs::read_to_string(repository().join("samples/S5.sheet")).expect("a sheet");
    assert_eq!(copy.run("./auction-print < samples/S5.book"), sheet);
    for line in shown("hour;cents;tenths", "welfare;") {
        assert!(line.starts_with("..") || sheet.lines().any(|other| other == line), "{line}");
    }
    let cash = shown("portfolio;bought;", "all;").join("\n") + "\n";
    assert_eq!(copy.run("./cash-print < samples/S5.book"), cash);
}

/// The indented lines of the README from one that begins so to one that begins so.
fn shown(first: &str, last: &str) -> Vec<String> {
    let readme = fs::read_to_string(repository().join("README.md")).expect("the README");
    let lines: Vec<&str> = readme.lines().filter_map(|line| line.strip_prefix("    ")).collect();
    let from = lines.iter().position(|line| line.starts_with(first)).expect(first);
    let length = lines[from..].iter().position(|line| line.starts_with(last)).expect(last);
    lines[from..=from + length].iter().map(|line| line.to_string()).collect()
}

/// Each page that the README leads to is there.
#[test]
fn the_links_lead_somewhere() {
    for page in ["README.md", "docs/CALLS.md", "docs/FORMATS.md"] {
        let file = repository().join(page);
        let text = fs::read_to_string(&file).expect(page);
        let links = text.split("](").skip(1).map(|rest| rest.split(')').next().unwrap_or(""));
        for link in links {
            let (path, part) = link.split_once('#').unwrap_or((link, ""));
            let target = file.parent().expect("a folder").join(path);
            assert!(target.is_file(), "{page}: {link}");
            let titles = fs::read_to_string(&target).expect(link);
            let anchor =
                |title: &str| title.trim_start_matches('#').trim().to_lowercase().replace(' ', "-");
            let found = titles.lines().any(|line| line.starts_with('#') && anchor(line) == part);
            assert!(part.is_empty() || found, "{page}: {link}");
        }
    }
}
