//! What is seen while several sheets are judged.

use crate::folder::Folder;
use crate::run::lodhrussi;
use comparison::running::Running;
use comparison::worked::S1;
use std::fs::{self, File};
use std::io::Write;
use std::process::{Command, Stdio};
use std::thread;
use std::time::{Duration, Instant};

/// Longer than it takes until something is to be seen of the work.
const LONG: Duration = Duration::from_secs(2);

/// Nothing is to be seen of shorter work.
const MOMENT: Duration = Duration::from_secs(1);

const S1_LINE: &str = "s1.hex: can be met, 16 of 32 pairings left";
const SLOW_LINE: &str = "slow.hex: can be met, 4 of 4 pairings left";
const TOTALS: &str = "3 sheets: 3 can be met, 0 cannot be met, 0 refused; 36 survivors";

/// A folder with S1 and with a file that waits for its bytes.
fn with_slow_file() -> Folder {
    let folder = Folder::with(&[("s1.hex", S1)]);
    let slow = folder.path().join("slow.hex");
    let made = Command::new("mkfifo").arg(slow).status();
    assert!(made.expect("mkfifo runs").success());
    folder
}

/// Gives that file its bytes, so long after it is first waited for.
fn feed_after(time: Duration, folder: &Folder) {
    // this waits for a reader
    let slow = File::options()
        .write(true)
        .open(folder.path().join("slow.hex"));
    thread::sleep(time);
    let fed = slow.and_then(|mut slow| slow.write_all(b"03 00"));
    fed.expect("the bytes are taken");
}

/// Runs the rest of its arguments with a terminal for standard error and a file
/// for standard output; prints what was written to the terminal.
const ON_TERMINAL: &str = "
import os, pty, subprocess, sys
ours, its = pty.openpty()
with open(sys.argv[1], 'wb') as out:
    child = subprocess.Popen(sys.argv[2:], stdin=subprocess.DEVNULL, stdout=out, stderr=its)
os.close(its)
try:
    while some := os.read(ours, 4096):
        sys.stdout.buffer.write(some)
except OSError:
    pass  # the terminal is gone
sys.exit(child.wait())
";

/// Judges files on a terminal; answers what was written there. On standard
/// output are these lines and no more.
fn on_terminal(folder: &Folder, files: &[&str], lines: &[&str]) -> String {
    let mut python = Command::new("python3");
    python.args(["-c", ON_TERMINAL, "out"]);
    python
        .arg(lodhrussi().get_program())
        .arg("judge")
        .args(files);
    let output = python.current_dir(folder.path()).output();
    let output = output.expect("python3 runs");
    assert_eq!(String::from_utf8_lossy(&output.stderr), "");
    assert_eq!(output.status.code(), Some(0));
    let out = fs::read_to_string(folder.path().join("out"));
    assert_eq!(out.expect("the command's output"), lines.join("\n") + "\n");
    String::from_utf8(output.stdout).expect("text")
}

/// What stands in the line of a terminal after each piece that is written over
/// it.
fn seen(written: &str) -> Vec<String> {
    let mut line = String::new();
    let pieces = written.split('\r').map(|piece| {
        let rest = line.get(piece.len()..).unwrap_or_default();
        line = format!("{piece}{rest}");
        line.trim_end().to_string()
    });
    pieces.collect()
}

/// After a second a line tells how many are judged, and in the end it is wiped
/// away.
#[test]
fn a_line_on_a_terminal() {
    let folder = with_slow_file();
    let files = ["s1.hex", "slow.hex", "s1.hex"];
    let written = thread::scope(|scope| {
        scope.spawn(|| feed_after(LONG, &folder));
        let lines = [S1_LINE, SLOW_LINE, S1_LINE, TOTALS];
        on_terminal(&folder, &[&["--jobs", "1"][..], &files].concat(), &lines)
    });
    let seen = seen(&written);
    let lines = ["", "1 of 3 judged", "2 of 3 judged", "3 of 3 judged"];
    let told = seen
        .iter()
        .map(|line| lines.iter().position(|other| other == line));
    let told: Vec<_> = told.collect::<Option<_>>().expect(&written);
    assert!(told.contains(&1), "{written:?}");
    let counts = || told.iter().filter(|&&count| count > 0);
    assert!(counts().is_sorted(), "{written:?}");
    assert_eq!(told.last(), Some(&0), "{written:?}");
    assert!(written.ends_with('\r'), "{written:?}");
}

/// What is done within a second needs no line. A run that the machine held up
/// for longer shows nothing, and is made again.
#[test]
fn no_line_for_a_moment() {
    let folder = Folder::with(&[("s1.hex", S1)]);
    let totals = "2 sheets: 2 can be met, 0 cannot be met, 0 refused; 32 survivors";
    let runs = (0..5).map(|_| {
        let start = Instant::now();
        let written = on_terminal(&folder, &["s1.hex"; 2], &[S1_LINE, S1_LINE, totals]);
        (written, start.elapsed())
    });
    let quick = runs.into_iter().find(|(_, time)| *time < MOMENT);
    assert_eq!(quick.expect("a quick run").0, "");
}

/// Each line comes as soon as it and those before it are judged: here the second
/// file has its bytes long after the first line came. Where standard error is no
/// terminal nothing is seen there meanwhile.
#[test]
fn lines_come_as_they_are_judged() {
    for jobs in ["1", "2"] {
        let folder = with_slow_file();
        let mut command = lodhrussi();
        command
            .args(["judge", "--jobs", jobs, "s1.hex", "slow.hex", "s1.hex"])
            .current_dir(folder.path())
            .stdin(Stdio::null())
            .stdout(Stdio::piped())
            .stderr(Stdio::piped());
        let running = Running::start(&mut command);
        assert_eq!(running.line(), S1_LINE);
        feed_after(LONG, &folder);
        for line in [SLOW_LINE, S1_LINE, TOTALS] {
            assert_eq!(running.line(), line);
        }
        assert_eq!(running.end(), "");
    }
}
