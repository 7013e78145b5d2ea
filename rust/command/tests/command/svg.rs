//! `lodhrussi draw --svg`, with programs `dot` made up here.

use crate::draw::{BOTH_WAYS, BOTH_WAYS_DOT, BOTH_WAYS_SAID};
use crate::folder::Folder;
use crate::run::{lodhrussi, Ran};
use comparison::program::fed;
use comparison::worked::S6;
use std::fs::{self, File, Permissions};
use std::io::{Read, Write};
use std::os::unix::fs::{symlink, FileTypeExt, PermissionsExt};
use std::process::Command;
use std::time::Duration;

/// Writes its arguments and its input.
const COPYING: &str = "#!/bin/sh
echo \"<svg $*>\"
while IFS= read -r line; do printf '%s\\n' \"$line\"; done
";
/// Begins, says why it cannot go on, and fails.
const FAILING: &str = "#!/bin/sh
echo '<svg'
echo 'no ink' >&2
exit 7
";
const KILLED: &str = "#!/bin/sh
echo '<svg'
kill -9 $$
";
const WRITING_NOTHING: &str = "#!/bin/sh
while read -r line; do :; done
";
const READING_NOTHING: &str = "#!/bin/sh
echo '<svg/>'
";

/// A folder with a sheet, a file, and this program on the path.
fn folder(dot: &str) -> Folder {
    let folder = Folder::with(&[("s.hex", BOTH_WAYS), ("old.svg", "old"), ("tools/x", "")]);
    folder.executable("tools/dot", dot);
    folder
}

/// Asks for a picture of a sheet.
fn drawn(folder: &Folder, sheet: &str, arguments: &[&str]) -> Ran {
    let mut command = lodhrussi();
    asked(folder, command.arg("draw").args(arguments), sheet)
}

/// Runs a command in a folder, with its tools alone on the path.
fn asked(folder: &Folder, command: &mut Command, sheet: &str) -> Ran {
    command.current_dir(folder.path());
    command.env("PATH", folder.path().join("tools"));
    let input = [sheet.as_bytes()].into_iter();
    Ran::of(fed(command, input, Duration::ZERO))
}

/// What a file in the folder holds.
#[track_caller]
fn held(folder: &Folder, name: &str) -> String {
    fs::read_to_string(folder.path().join(name)).expect("a text")
}

/// Asserts which files a folder has, beside the tools.
#[track_caller]
fn assert_files(folder: &Folder, expected: &[&str]) {
    let entries = fs::read_dir(folder.path()).expect("a folder");
    let names = entries.map(|entry| entry.expect("an entry").file_name());
    let names = names.map(|name| name.into_string().expect("a name in letters"));
    let mut names: Vec<_> = names.filter(|name| name != "tools").collect();
    names.sort();
    assert_eq!(names, expected);
}

fn picture() -> String {
    format!("<svg -Tsvg>\n{BOTH_WAYS_DOT}")
}

#[test]
fn a_picture_in_a_file() {
    let folder = folder(COPYING);
    fs::create_dir(folder.path().join("docs")).expect("a folder");
    for (arguments, file) in [
        (["s.hex", "--svg", "new.svg"], "new.svg"),
        (["--svg=docs/a b", "--", "s.hex"], "docs/a b"),
        (["--svg", "old.svg", "-"], "old.svg"),
    ] {
        let said = format!("{BOTH_WAYS_SAID}The picture is in {file}.\n");
        drawn(&folder, BOTH_WAYS, &arguments).is(0, &said, "");
        assert_eq!(held(&folder, file), picture());
    }
    assert_files(&folder, &["docs", "new.svg", "old.svg", "s.hex"]);
}

#[test]
fn a_picture_on_standard_output() {
    let folder = folder(COPYING);
    drawn(&folder, "", &["--svg", "-", "s.hex"]).is(0, &picture(), "");
    assert_files(&folder, &["old.svg", "s.hex"]);
}

/// What a link leads to gets the picture.
#[test]
fn a_link() {
    let folder = folder(COPYING);
    symlink("old.svg", folder.path().join("linked")).expect("a link");
    let said = format!("{BOTH_WAYS_SAID}The picture is in linked.\n");
    drawn(&folder, "", &["--svg", "linked", "s.hex"]).is(0, &said, "");
    assert_eq!(held(&folder, "old.svg"), picture());
    assert!(folder.path().join("linked").is_symlink());
    assert_files(&folder, &["linked", "old.svg", "s.hex"]);
}

/// So does what is not there yet, at the end of several links.
#[test]
fn a_link_to_no_file() {
    let folder = folder(COPYING);
    fs::create_dir(folder.path().join("docs")).expect("a folder");
    let inner = folder.path().join("docs/inner");
    symlink(&inner, folder.path().join("outer")).expect("a link");
    symlink("new.svg", inner).expect("a link");
    symlink("none/new", folder.path().join("astray")).expect("a link");
    let said = format!("{BOTH_WAYS_SAID}The picture is in outer.\n");
    drawn(&folder, "", &["--svg", "outer", "s.hex"]).is(0, &said, "");
    assert_eq!(held(&folder, "docs/new.svg"), picture());
    let said = "lodhrussi: astray cannot be written: No such file or directory (os error 2)\n";
    drawn(&folder, "", &["--svg", "astray", "s.hex"]).is(3, "", said);
    for link in ["outer", "docs/inner", "astray"] {
        assert!(folder.path().join(link).is_symlink(), "{link}");
    }
    assert_files(&folder, &["astray", "docs", "old.svg", "outer", "s.hex"]);
}

/// A file that is there keeps its rights.
#[test]
fn rights() {
    let folder = folder(COPYING);
    let path = folder.path().join("old.svg");
    for rights in [0o600, 0o664, 0o755] {
        fs::write(&path, "old").expect("a file");
        fs::set_permissions(&path, Permissions::from_mode(rights)).expect("rights");
        let said = format!("{BOTH_WAYS_SAID}The picture is in old.svg.\n");
        drawn(&folder, "", &["--svg", "old.svg", "s.hex"]).is(0, &said, "");
        assert_eq!(held(&folder, "old.svg"), picture());
        let mode = fs::metadata(&path).expect("a file").permissions().mode();
        assert_eq!(mode & 0o7777, rights);
    }
}

/// A pipe with a name, which is no file to be replaced, takes the picture.
#[test]
fn a_pipe() {
    let folder = folder(COPYING);
    let path = folder.path().join("pipe");
    let made = Command::new("mkfifo").arg(&path).status();
    assert!(made.expect("mkfifo runs").success());
    // open both ways, it holds what is written until that is read
    let pipe = File::options().read(true).write(true).open(&path);
    let mut pipe = pipe.expect("a pipe");
    let said = format!("{BOTH_WAYS_SAID}The picture is in pipe.\n");
    drawn(&folder, "", &["--svg", "pipe", "s.hex"]).is(0, &said, "");
    pipe.write_all(b"the end").expect("room in a pipe");
    let mut held = [0; 1 << 16];
    let length = pipe.read(&mut held).expect("what was written");
    let expected = picture() + "the end";
    assert_eq!(String::from_utf8_lossy(&held[..length]), expected);
    let kind = fs::metadata(&path).expect("a pipe").file_type();
    assert!(kind.is_fifo());
    assert_files(&folder, &["old.svg", "pipe", "s.hex"]);
}

/// A program that writes while it reads gets all of a long text, and one that does
/// not read is not waited for.
#[test]
fn long_texts() {
    let copying = folder(COPYING);
    let dot = drawn(&copying, S6, &["--dot", "-"]).out;
    assert!(dot.len() > 1 << 16);
    let picture = format!("<svg -Tsvg>\n{dot}");
    drawn(&copying, S6, &["--svg", "-", "-"]).is(0, &picture, "");
    let reading_nothing = folder(READING_NOTHING);
    drawn(&reading_nothing, S6, &["--svg", "-", "-"]).is(0, "<svg/>\n", "");
}

/// Asserts that there is no picture, and that no file is changed.
#[track_caller]
fn assert_none(folder: &Folder, said: &str) {
    for file in ["old.svg", "new.svg", "-"] {
        drawn(folder, "", &["--svg", file, "s.hex"]).is(3, "", said);
        assert_eq!(held(folder, "old.svg"), "old");
        assert_files(folder, &["old.svg", "s.hex"]);
    }
}

#[test]
fn no_program() {
    let folder = Folder::with(&[("s.hex", BOTH_WAYS), ("old.svg", "old"), ("tools/x", "")]);
    let none = "lodhrussi: a picture is drawn by Graphviz, and there is no program dot on the \
                PATH; --dot prints the text that dot takes\n";
    assert_none(&folder, none);
    folder.write("tools/dot", COPYING);
    let denied = "lodhrussi: Graphviz's program dot cannot be run: Permission denied (os error \
                  13)\n";
    assert_none(&folder, denied);
}

#[test]
fn programs_that_fail() {
    for (dot, said, status) in [
        (FAILING, "no ink\n", "exit status: 7"),
        (KILLED, "", "signal: 9 (SIGKILL)"),
        (WRITING_NOTHING, "", "exit status: 0"),
    ] {
        let failed = format!("lodhrussi: Graphviz's program dot drew no picture ({status})\n");
        assert_none(&folder(dot), &[said, &failed].concat());
    }
}

/// A sheet of which no plant is drawn has no picture, with the program or without.
#[test]
fn no_plant() {
    let folder = folder(FAILING);
    let none = "cannot be met\n\
        No finite plant of at least one item keeps all rules of this sheet, so there is none to \
        draw.\n";
    drawn(&folder, "01 02 20 00 01", &["--svg", "old.svg", "-"]).is(1, none, "");
    let ran = drawn(&folder, "03 0B", &["--svg", "old.svg", "-"]);
    assert!(
        ran.out.starts_with("standard input: refused 27\n"),
        "{}",
        ran.out
    );
    ran.is(2, &ran.out, "");
    assert_eq!(held(&folder, "old.svg"), "old");
}

#[test]
fn files_that_cannot_be_written() {
    let folder = folder(COPYING);
    for (file, told, why) in [
        (
            "none/new",
            "none/new",
            "No such file or directory (os error 2)",
        ),
        ("s.hex/new", "s.hex/new", "Not a directory (os error 20)"),
        (".", ".", "Is a directory (os error 21)"),
        ("", "''", "No such file or directory (os error 2)"),
    ] {
        let said = format!("lodhrussi: {told} cannot be written: {why}\n");
        drawn(&folder, "", &["--svg", file, "s.hex"]).is(3, "", &said);
    }
    assert_files(&folder, &["old.svg", "s.hex"]);
}

/// Where no file may have a byte, none is half written, and one that is there is
/// kept.
#[test]
fn no_room() {
    let folder = folder(COPYING);
    for file in ["old.svg", "new.svg"] {
        let mut shell = Command::new("/bin/sh");
        shell.args(["-c", "trap '' XFSZ; ulimit -f 0; exec \"$0\" \"$@\""]);
        shell.arg(lodhrussi().get_program());
        shell.args(["draw", "--svg", file, "s.hex"]);
        let said = format!("lodhrussi: {file} cannot be written: File too large (os error 27)\n");
        asked(&folder, &mut shell, "").is(3, "", &said);
        assert_eq!(held(&folder, "old.svg"), "old");
        assert_files(&folder, &["old.svg", "s.hex"]);
    }
}
