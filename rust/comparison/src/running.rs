//! A program that runs while a test gives it input and reads its lines.

use crate::program::Program;
use std::io::{BufRead, BufReader, Read, Write};
use std::os::fd::OwnedFd;
use std::os::unix::net::UnixStream;
use std::process::{Child, ChildStdin, Command};
use std::sync::mpsc::{self, Receiver, RecvTimeoutError};
use std::thread;
use std::time::{Duration, Instant};

/// After so long a line or an end will not come.
const PATIENCE: Duration = Duration::from_secs(20);

/// A running program whose lines are read as they come.
pub struct Running {
    child: Child,
    lines: Receiver<String>,
}

impl Running {
    pub fn start(command: &mut Command) -> Self {
        Self::start_reading(usize::MAX, command)
    }

    /// Starts a program whose output is closed after so many lines.
    pub fn start_reading(lines: usize, command: &mut Command) -> Self {
        let mut child = command.spawn().expect("the program starts");
        let stdout = child.stdout.take();
        let (sender, receiver) = mpsc::channel();
        thread::spawn(move || {
            let read = stdout
                .into_iter()
                .flat_map(|out| BufReader::new(out).lines());
            for line in read.take(lines) {
                let _ = sender.send(line.expect("lines of text"));
            }
        });
        Running {
            child,
            lines: receiver,
        }
    }

    /// Runs a program on an input that fails after some bytes: a stream whose
    /// other end goes away before it read what was sent to it. Asserts its
    /// lines; answers what it complains of.
    pub fn input_failing_after(bytes: &[u8], lines: &[&str], program: Program) -> String {
        let (mut ours, mut its) = UnixStream::pair().expect("a stream");
        its.write_all(b"never read").expect("bytes are taken");
        let running = Self::start(program.command().stdin(OwnedFd::from(its)));
        ours.write_all(bytes).expect("bytes are taken");
        for line in lines {
            assert_eq!(running.line(), *line);
        }
        drop(ours);
        running.end()
    }

    /// The input, which now stays open until it is dropped.
    pub fn input(&mut self) -> ChildStdin {
        self.child.stdin.take().expect("a piped input")
    }

    /// The next line, which must not wait for more input.
    pub fn line(&self) -> String {
        let line = self.lines.recv_timeout(PATIENCE);
        line.expect("a line before more input")
    }

    /// Asserts that the output is closed and no line is left.
    pub fn no_line(&self) {
        let line = self.lines.recv_timeout(PATIENCE);
        assert_eq!(line, Err(RecvTimeoutError::Disconnected));
    }

    /// Asserts that the program prints no more and ends, its input open or not;
    /// answers what it complains of.
    pub fn end(mut self) -> String {
        self.no_line();
        let start = Instant::now();
        while self.child.try_wait().expect("a child").is_none() {
            assert!(start.elapsed() < PATIENCE, "the program does not end");
            thread::sleep(Duration::from_millis(1));
        }
        let mut complaint = String::new();
        let mut stderr = self.child.stderr.take().expect("a piped standard error");
        let read = stderr.read_to_string(&mut complaint);
        read.expect("lines of text");
        complaint
    }
}

impl Drop for Running {
    /// Leaves no program behind when an assertion failed.
    fn drop(&mut self) {
        let _ = self.child.kill();
        let _ = self.child.wait();
    }
}
