//! Links `libauction.a`, and takes the numbers of `auction.h` and the words of its
//! refusals over as constants, so that they stand in one place.
//!
//! The library lies in `target/lib` of the repository, where `./build library` puts it,
//! or in the folder that the environment variable AUCTION_LIB_DIR names.

use std::path::{Path, PathBuf};
use std::{env, fs, process};

fn main() {
    let package = PathBuf::from(env::var_os("CARGO_MANIFEST_DIR").expect("cargo sets it"));
    let given = env::var_os("AUCTION_LIB_DIR").unwrap_or_else(|| "../../target/lib".into());
    let folder = package.join(given);
    let library = folder.join("libauction.a");
    println!("cargo:rerun-if-env-changed=AUCTION_LIB_DIR");
    println!("cargo:rerun-if-changed={}", library.display());
    if !library.is_file() {
        stop(&format!("there is no {}; `./build library` makes it", library.display()));
    }
    println!("cargo:rustc-link-search=native={}", folder.display());
    println!("cargo:rustc-link-lib=static=auction");

    let header = package.join("../../include/auction.h");
    println!("cargo:rerun-if-changed={}", header.display());
    let text = fs::read_to_string(&header)
        .unwrap_or_else(|error| stop(&format!("{}: {error}", header.display())));
    let out = PathBuf::from(env::var_os("OUT_DIR").expect("cargo sets it"));
    write(&out.join("header.rs"), &constants(&text));
}

/// Ends the build with a message alone.
fn stop(message: &str) -> ! {
    eprintln!("auction: {message}");
    process::exit(1)
}

fn write(file: &Path, text: &str) {
    fs::write(file, text).unwrap_or_else(|error| stop(&format!("{}: {error}", file.display())));
}

/// A constant for each `#define` of a number, documented by its comment; and the words of
/// each refusal by its number.
fn constants(header: &str) -> String {
    let (mut lines, mut words) = (String::new(), String::new());
    for (name, number, comment) in header.lines().filter_map(definition) {
        lines += &format!("/// {comment}\npub const {name}: u32 = {number};\n");
        if name.starts_with("REFUSED_") {
            words += &format!("({number}, {comment:?}), ");
        }
    }
    lines
        + &format!(
            "/// The words of each refusal.\npub const REFUSALS: &[(u32, &str)] = &[{words}];\n"
        )
}

/// The name, number and comment of a line `#define AUCTION_NAME 7 /* comment */`.
fn definition(line: &str) -> Option<(&str, u32, &str)> {
    let rest = line.strip_prefix("#define AUCTION_")?;
    let (name, rest) = rest.split_once(' ')?;
    let (number, rest) = rest.split_once("/*")?;
    let comment = rest.strip_suffix("*/")?.trim();
    Some((name, number.trim().parse().ok()?, comment))
}
