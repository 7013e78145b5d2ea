//! Runs the command.

use crate::folder::Folder;
use comparison::program::fed;
use std::ffi::OsStr;
use std::process::{Command, Output};
use std::time::Duration;

/// What a run left.
#[derive(PartialEq, Eq)]
pub struct Ran {
    pub status: Option<i32>,
    pub out: String,
    pub err: String,
}

impl Ran {
    /// What is known of a process that ended.
    pub fn of(output: Output) -> Self {
        Ran {
            status: output.status.code(),
            out: String::from_utf8(output.stdout).expect("standard output is text"),
            err: String::from_utf8(output.stderr).expect("standard error is text"),
        }
    }

    /// Asserts the exit status, the whole standard output and the whole
    /// standard error.
    #[track_caller]
    pub fn is(&self, status: i32, out: &str, err: &str) {
        let same = self.status == Some(status) && self.out == out && self.err == err;
        assert!(
            same,
            "exit status {:?}, not {status}\n{}{}",
            self.status,
            differing("standard output", &self.out, out),
            differing("standard error", &self.err, err),
        );
    }
}

/// Two texts one below the other, if they differ.
fn differing(what: &str, found: &str, wanted: &str) -> String {
    if found == wanted {
        return String::new();
    }
    format!("---- {what}:\n{found}\n---- wanted:\n{wanted}\n----\n")
}

/// The built command.
pub fn lodhrussi() -> Command {
    Command::new(env!("CARGO_BIN_EXE_lodhrussi"))
}

/// Runs the command in a folder, with no input.
pub fn run(folder: &Folder, arguments: &[impl AsRef<OsStr>]) -> Ran {
    run_on(folder, arguments, &[])
}

/// Runs the command in a folder on a standard input.
pub fn run_on(folder: &Folder, arguments: &[impl AsRef<OsStr>], input: &[u8]) -> Ran {
    let mut command = lodhrussi();
    command.args(arguments).current_dir(folder.path());
    Ran::of(fed(&mut command, [input].into_iter(), Duration::ZERO))
}
