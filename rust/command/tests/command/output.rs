//! A standard output that takes nothing, or no more.

use crate::folder::Folder;
use crate::run::{lodhrussi, Ran};
use comparison::worked::S1;
use std::fs::File;
use std::io::{self, BufRead, BufReader};
use std::process::{Command, Stdio};

const GONE: &str = "lodhrussi: the answer cannot be written: Broken pipe (os error 32)\n";
const FULL: &str =
    "lodhrussi: the answer cannot be written: No space left on device (os error 28)\n";

/// Arguments of every subcommand and form.
const QUESTIONS: [&[&str]; 24] = [
    &["--help"],
    &["--version"],
    &["judge", "--help"],
    &["judge", "s1.hex"],
    &["judge", "--lines", "s1.hex"],
    &["judge", "--json", "s1.hex"],
    &["judge", "s1.hex", "s1.hex"],
    &["judge", "--lines", "s1.hex", "s1.hex"],
    &["judge", "--json", "s1.hex", "s1.hex"],
    &["judge", "--jobs", "2", "s1.hex", "bad.hex"],
    &["show", "s1.hex"],
    &["show", "--json", "bad.hex"],
    &["strike", "s1.hex", "32", "34"],
    &["strike", "--json", "s1.hex", "64"],
    &["check", "s1.hex", "s1.plant"],
    &["check", "s1.hex", "bad.hex"],
    &["check", "--json", "s1.hex", "s1.plant"],
    &["check", "--json", "bad.hex", "s1.plant"],
    &["draw", "s1.hex"],
    &["draw", "--records", "s1.hex"],
    &["draw", "--dot", "s1.hex"],
    &["draw", "--json", "s1.hex"],
    &["draw", "unmet.hex"],
    &["draw", "--json", "bad.hex"],
];

fn folder() -> Folder {
    Folder::with(&[
        ("s1.hex", S1),
        ("bad.hex", "04 00"),
        ("unmet.hex", "01 02 20 00 01"),
        ("s1.plant", "40 01 00"),
    ])
}

/// The command on a question in a folder, with no input.
fn asked(folder: &Folder, question: &[&str]) -> Command {
    let mut command = lodhrussi();
    command.args(question).current_dir(folder.path());
    command.stdin(Stdio::null()).stderr(Stdio::piped());
    command
}

/// An output whose reader is gone.
fn gone() -> io::PipeWriter {
    let (_, writer) = io::pipe().expect("a pipe");
    writer
}

fn full() -> File {
    let full = File::options().write(true).open("/dev/full");
    full.expect("an output that is full")
}

#[track_caller]
fn ran(command: &mut Command) -> Ran {
    let child = command.spawn().expect("the command starts");
    Ran::of(child.wait_with_output().expect("the command ends"))
}

#[test]
fn a_reader_that_is_gone() {
    let folder = folder();
    for question in QUESTIONS {
        ran(asked(&folder, question).stdout(gone())).is(3, "", GONE);
    }
}

#[test]
fn a_full_device() {
    let folder = folder();
    for question in QUESTIONS {
        ran(asked(&folder, question).stdout(full())).is(3, "", FULL);
    }
}

/// Nobody can be told, but the exit status is as ever.
#[test]
fn a_standard_error_that_takes_nothing_either() {
    let folder = folder();
    for question in QUESTIONS {
        ran(asked(&folder, question).stdout(gone()).stderr(gone())).is(3, "", "");
        ran(asked(&folder, question).stdout(full()).stderr(full())).is(3, "", "");
    }
    let unknown = ["--no-such-option"];
    ran(asked(&folder, &unknown).stdout(gone()).stderr(full())).is(3, "", "");
}

/// What the system closes is opened as the null device: nothing is lost but the
/// text.
#[test]
fn closed_descriptors() {
    let folder = folder();
    for (file, status) in [("s1.hex", 0), ("bad.hex", 2), ("none.hex", 3), ("-", 0)] {
        let mut shell = Command::new("/bin/sh");
        shell.arg("-c").arg("exec \"$0\" judge \"$1\" <&- >&- 2>&-");
        shell.arg(lodhrussi().get_program()).arg(file);
        ran(shell.current_dir(folder.path())).is(status, "", "");
    }
}

/// A reader that leaves after the first line. So much is left that a pipe does
/// not take it.
#[test]
fn a_reader_that_goes_away() {
    let object = "{\"file\":\"s1.hex\",\"answer\":\"met\",\"traits\":1,\"fresh\":0,\"some\":1,\
                  \"only\":0,\"links\":1,\"marks\":2,\"opening\":32,\"survivors\":16}\n";
    let line = "s1.hex: can be met, 16 of 32 pairings left\n";
    let folder = folder();
    for (form, first) in [("--jobs=2", line), ("--json", object)] {
        let mut child = asked(&folder, &["judge", form])
            .args(["s1.hex"; 6_000])
            .stdout(Stdio::piped())
            .spawn()
            .expect("the command starts");
        let mut read = String::new();
        let mut reader = BufReader::new(child.stdout.take().expect("a piped output"));
        reader.read_line(&mut read).expect("a line");
        drop(reader);
        assert_eq!(read, first);
        Ran::of(child.wait_with_output().expect("the command ends")).is(3, "", GONE);
    }
}
