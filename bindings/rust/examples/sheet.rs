//! Prints the sheet of a book's file: `cargo run -q --example sheet -- ../../samples/S5.book`
//!
//! Exit codes: 0 for a sheet, 1 for a refusal, 2 where the file cannot be read or the sheet
//! cannot be written.

use std::fs::File;
use std::io::{self, Read, Write};
use std::process::ExitCode;

/// Whether the program was started with a standard output. Rust's runtime opens the null device
/// in place of one that is closed, so this is asked before the runtime starts.
mod standard_output {
    use std::ffi::c_int;
    use std::sync::atomic::{AtomicBool, Ordering};

    static CLOSED: AtomicBool = AtomicBool::new(false);

    #[used]
    #[link_section = ".init_array"]
    static BEFORE_MAIN: extern "C" fn() = look;

    extern "C" {
        fn fcntl(descriptor: c_int, command: c_int, ...) -> c_int;
    }

    extern "C" fn look() {
        const STANDARD_OUTPUT: c_int = 1;
        const F_GETFD: c_int = 1;
        // SAFETY: the call only asks for the flags of a descriptor.
        let flags = unsafe { fcntl(STANDARD_OUTPUT, F_GETFD) };
        CLOSED.store(flags < 0, Ordering::Relaxed);
    }

    pub fn was_closed() -> bool {
        CLOSED.load(Ordering::Relaxed)
    }
}

fn main() -> ExitCode {
    let names: Vec<_> = std::env::args_os().skip(1).collect();
    let [name] = &names[..] else {
        return stop("usage: sheet BOOK");
    };
    let mut book = Vec::new();
    // One byte more than a book may have, so that a longer file is refused and not cut.
    let most = u64::from(auction::header::MOST_BOOK) + 1;
    let file = File::open(name).and_then(|file| file.take(most).read_to_end(&mut book));
    if let Err(error) = file {
        return stop(&format!("{}: {error}", name.to_string_lossy()));
    }
    if standard_output::was_closed() {
        return stop("there is no standard output to write to");
    }
    let mut out = io::stdout();
    let sheet = auction::sheet(&book);
    if let Err(error) = out.write_all(sheet.as_bytes()).and_then(|()| out.flush()) {
        return stop(&format!("cannot write standard output: {error}"));
    }
    match auction::read(&book) {
        Ok(()) => ExitCode::SUCCESS,
        Err(refusal) => {
            eprintln!("sheet: {}: {refusal}", name.to_string_lossy());
            ExitCode::from(1)
        }
    }
}

fn stop(message: &str) -> ExitCode {
    eprintln!("sheet: {message}");
    ExitCode::from(2)
}
