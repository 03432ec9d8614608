//! Scripts that tests write and run: one at a time over all tests of a program. A command that
//! starts while another test has a script open for writing has it open too, for a moment, and
//! a script that is open for writing does not run (`Text file busy`).

use std::fs;
use std::os::unix::fs::PermissionsExt;
use std::path::Path;
use std::process::{Child, Command, Output, Stdio};
use std::sync::{Mutex, MutexGuard, PoisonError};

fn alone() -> MutexGuard<'static, ()> {
    static TURN: Mutex<()> = Mutex::new(());
    TURN.lock().unwrap_or_else(PoisonError::into_inner)
}

/// Writes a script that can be run.
pub fn write_script(file: &Path, text: &str) {
    let _turn = alone();
    fs::write(file, text).unwrap_or_else(|error| panic!("{}: {error}", file.display()));
    fs::set_permissions(file, fs::Permissions::from_mode(0o755)).expect("a script");
}

/// A copy of a script that can be run.
pub fn copy_script(from: &Path, to: &Path) {
    write_script(to, &fs::read_to_string(from).expect("a script"));
}

/// Starts a command.
pub fn start(command: &mut Command) -> Child {
    let _turn = alone();
    command.spawn().expect("it starts")
}

/// What a command answers, its outputs piped.
pub fn output(command: &mut Command) -> Output {
    let command = command.stdout(Stdio::piped()).stderr(Stdio::piped());
    start(command).wait_with_output().expect("it ends")
}
