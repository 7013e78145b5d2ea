//! Runs the built programs, and any command on an input.

use std::io::{ErrorKind, Write};
use std::path::{Path, PathBuf};
use std::process::{Command, Output, Stdio};
use std::thread;
use std::time::Duration;

/// A built program, by its name.
#[derive(Clone, Copy)]
pub struct Program(pub &'static str);

impl Program {
    /// Where it is.
    ///
    /// # Panics
    ///
    /// If it is missing.
    pub fn path(self) -> PathBuf {
        let crates = Path::new(env!("CARGO_MANIFEST_DIR")).join("../../crates");
        let path = crates.join(self.0).join("out").join(self.0);
        assert!(
            path.is_file(),
            "{} is missing: run `rt run` first, in crates/{}",
            path.display(),
            self.0
        );
        path
    }

    /// The program with its input and outputs piped.
    pub fn command(self) -> Command {
        let mut command = Command::new(self.path());
        piped(&mut command);
        command
    }

    /// A shell that does something and then is the program, piped too.
    pub fn after(self, before: &str) -> Command {
        let mut shell = Command::new("/bin/sh");
        let line = format!("{before} exec \"$0\"");
        piped(shell.arg("-c").arg(line).arg(self.path()));
        shell
    }

    /// What the program prints for an input.
    ///
    /// # Panics
    ///
    /// If it complains of anything.
    #[must_use]
    pub fn printed(self, input: &[u8]) -> String {
        self.printed_for_chunks(input.chunks(input.len().max(1)), Duration::ZERO)
    }

    /// What the program prints for an input written in chunks, with a pause
    /// after each.
    pub fn printed_for_chunks<'a>(
        self,
        chunks: impl Iterator<Item = &'a [u8]> + Send,
        pause: Duration,
    ) -> String {
        let output = fed(&mut self.command(), chunks, pause);
        text(output)
    }

    /// Asserts that the program prints this for an input; answers how many
    /// lines were compared.
    #[track_caller]
    pub fn assert_prints(self, input: &[u8], expected: &str) -> u64 {
        assert_same(&self.printed(input), expected)
    }
}

/// Runs a command on an input written in chunks, with a pause after each.
///
/// # Panics
///
/// If it does not start or takes no input.
pub fn fed<'a>(
    command: &mut Command,
    chunks: impl Iterator<Item = &'a [u8]> + Send,
    pause: Duration,
) -> Output {
    let mut child = piped(command).spawn().expect("the program starts");
    let mut stdin = child.stdin.take().expect("a piped input");
    thread::scope(|scope| {
        scope.spawn(move || {
            for chunk in chunks {
                if !write(&mut stdin, chunk) {
                    return;
                }
                thread::sleep(pause);
            }
        });
        child.wait_with_output().expect("the program's output")
    })
}

fn piped(command: &mut Command) -> &mut Command {
    command
        .stdin(Stdio::piped())
        .stdout(Stdio::piped())
        .stderr(Stdio::piped())
}

/// Writes bytes; answers whether the program still takes any.
fn write(stdin: &mut impl Write, bytes: &[u8]) -> bool {
    match stdin.write_all(bytes) {
        Err(error) if error.kind() == ErrorKind::BrokenPipe => false,
        result => {
            result.expect("the program takes its input");
            true
        }
    }
}

/// The standard output of a run without complaint.
pub fn text(output: Output) -> String {
    assert_eq!(String::from_utf8_lossy(&output.stderr), "");
    assert!(output.status.success(), "{}", output.status);
    String::from_utf8(output.stdout).expect("lines of text")
}

/// Asserts that two texts are the same to the byte, and names the first line
/// that differs; answers how many lines there are.
#[track_caller]
pub fn assert_same(printed: &str, expected: &str) -> u64 {
    let (mut lines, mut wanted) = (printed.split('\n'), expected.split('\n'));
    for number in 0.. {
        match (lines.next(), wanted.next()) {
            (None, None) => break,
            (line, wanted) => assert_eq!(line, wanted, "line {number} of what is printed"),
        }
    }
    expected.lines().count() as u64
}
