//! Writes the by-value twin from the proved source, or says where the two differ.
//! `cargo run --bin twin_source -- write|compare [CRATES]`, in `rust/`

use auction_listing::twin::source::{differences, twin_of};
use std::path::{Path, PathBuf};
use std::process::ExitCode;
use std::{fs, io};

const TWIN: &str = "src/twin/by_value";

fn main() -> ExitCode {
    let arguments: Vec<String> = std::env::args().skip(1).collect();
    let crates = PathBuf::from(arguments.get(1).map_or("../crates", String::as_str));
    let done = match arguments.first().map(String::as_str) {
        Some("write") => write(&crates),
        Some("compare") => compare(&crates),
        _ => {
            eprintln!("twin_source: expected `write` or `compare`");
            return ExitCode::from(2);
        }
    };
    match done {
        Ok(true) => ExitCode::SUCCESS,
        Ok(false) => ExitCode::from(1),
        Err(error) => {
            eprintln!("twin_source: {error}");
            ExitCode::from(2)
        }
    }
}

fn write(crates: &Path) -> io::Result<bool> {
    let files = twin_of(crates)?;
    if Path::new(TWIN).exists() {
        fs::remove_dir_all(TWIN)?;
    }
    for file in files {
        let path = Path::new(TWIN).join(&file.path);
        fs::create_dir_all(path.parent().expect("a file's folder"))?;
        fs::write(path, file.text)?;
    }
    Ok(true)
}

/// Names each file that differs, and the first line that does.
fn compare(crates: &Path) -> io::Result<bool> {
    let found = differences(crates, Path::new(TWIN))?;
    for (path, line) in &found {
        println!("{}: differs from line {line} on", path.display());
    }
    Ok(found.is_empty())
}
