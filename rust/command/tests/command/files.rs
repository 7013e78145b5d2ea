//! Files that cannot be read, and files that are no sheets at all.

use crate::folder::Folder;
use crate::run::{lodhrussi, run, run_on, Ran};
use comparison::random::Random;
use comparison::worked::S1;
use std::fs::{self, Permissions};
use std::io::ErrorKind;
use std::os::unix::fs::PermissionsExt;
use std::os::unix::process::CommandExt;

const OF_S1: &str = "can be met\n\
    marks 2 (traits 1, fresh 0, some 1, only 0), links 1; opening 32, survivors 16\n\
    Some finite plant of at least one item keeps all rules of this sheet: \
    of the 32 pairings that break no rule by themselves 16 can stand together.\n";

/// Asserts that every subcommand and form says that a file cannot be read.
#[track_caller]
fn assert_unread(folder: &Folder, file: &str, sentence: &str) {
    let err = format!("lodhrussi: {sentence}\n");
    for question in [
        &["judge", file][..],
        &["judge", "--lines", file],
        &["show", file],
        &["strike", file, "0"],
        &["check", file, "/dev/null"],
        &["check", "/dev/null", file],
        &["draw", file],
        &["draw", "--svg", "-", file],
    ] {
        run(folder, question).is(3, "", &err);
    }
    let told = if file.is_empty() { "''" } else { file };
    let object =
        format!("{{\"file\":\"{told}\",\"answer\":\"trouble\",\"sentence\":\"{sentence}\"}}\n");
    for question in [
        &["judge", "--json", file][..],
        &["show", "--json", file],
        &["strike", "--json", file, "0"],
        &["check", "--json", file, "/dev/null"],
        &["check", "--json", "/dev/null", file],
        &["draw", "--json", file],
    ] {
        run(folder, question).is(3, &object, &err);
    }
}

#[test]
fn a_file_that_does_not_exist() {
    let folder = Folder::new();
    assert_unread(&folder, "none.hex", "there is no file none.hex");
    assert_unread(&folder, "none/none.hex", "there is no file none/none.hex");
    assert_unread(&folder, "", "there is no file ''");
}

#[test]
fn a_folder() {
    let folder = Folder::with(&[("inner/s1.hex", S1)]);
    assert_unread(&folder, "inner", "inner is a folder");
    assert_unread(&folder, ".", ". is a folder");
}

#[test]
fn a_file_in_a_file() {
    let folder = Folder::with(&[("s1.hex", S1)]);
    let sentence = "s1.hex/s1.hex cannot be read: Not a directory (os error 20)";
    assert_unread(&folder, "s1.hex/s1.hex", sentence);
}

#[test]
fn a_file_whose_reading_fails() {
    let folder = Folder::with(&[("s1.hex", S1)]);
    let sentence = "/proc/self/mem cannot be read: Input/output error (os error 5)";
    assert_unread(&folder, "/proc/self/mem", sentence);
}

/// Who may read everything asks as nobody, if nobody may run the command.
#[test]
fn a_file_without_permission() {
    const NOBODY: u32 = 65_534;
    let folder = Folder::with(&[("s1.hex", S1)]);
    let path = folder.path().join("s1.hex");
    fs::set_permissions(&path, Permissions::from_mode(0o000)).expect("our own file");
    let mut command = lodhrussi();
    command.args(["judge", "s1.hex"]).current_dir(folder.path());
    if fs::read(&path).is_ok() {
        command.uid(NOBODY).gid(NOBODY);
    }
    let err = "lodhrussi: s1.hex cannot be read: Permission denied (os error 13)\n";
    match command.output() {
        Err(error) if error.kind() == ErrorKind::PermissionDenied => {}
        output => Ran::of(output.expect("the command runs")).is(3, "", err),
    }
}

#[test]
fn an_empty_file() {
    let folder = Folder::with(&[("empty", "")]);
    let lines = "traits 0 fresh 0 some 0 only 0 links 0\nopening 1 survivors 1\ncan be met\n";
    run(&folder, &["judge", "--lines", "empty"]).is(0, lines, "");
    run(&folder, &["judge", "--lines", "-"]).is(0, lines, "");
    run(&folder, &["judge", "--lines", "/dev/null"]).is(0, lines, "");
}

/// The refusal line of one sheet among several.
fn refusal_line(name: &str, sheet: &[u8]) -> String {
    let refusal = lodhrussi::read(sheet).expect_err("noise is refused");
    let (number, place) = (refusal.number, refusal.place);
    let sentence = refusal.explain(sheet);
    format!("{name}: refused {number} at byte {place}: {sentence}\n")
}

/// Noise of a megabyte, raw and as hex text, among other sheets.
#[test]
fn a_megabyte_of_noise() {
    let mut random = Random::seeded(80);
    let folder = Folder::with(&[("s1.hex", S1)]);
    let mut expected = String::new();
    let mut arguments = vec!["judge".to_string()];
    for number in 0..4 {
        let noise = [&[0x01; 3][..], &random.bytes(1 << 20)].concat();
        let raw = format!("noise{number}");
        folder.write(&raw, &noise);
        let pairs: String = noise.iter().map(|byte| format!("{byte:02x} ")).collect();
        let hex = format!("noise{number}.hex");
        folder.write(&hex, pairs);
        for name in [raw, hex] {
            expected += &refusal_line(&name, &noise);
            arguments.push(name);
        }
    }
    arguments.push("s1.hex".into());
    expected += "s1.hex: can be met, 16 of 32 pairings left\n\
                 9 sheets: 1 can be met, 0 cannot be met, 8 refused; 16 survivors\n";
    run(&folder, &arguments).is(2, &expected, "");
}

/// Records without a fault go on for a megabyte.
#[test]
fn a_megabyte_of_records() {
    let sheet = vec![0x01; 1 << 20];
    let hex = "01".repeat(1 << 20);
    let folder = Folder::with(&[("raw", &sheet[..]), ("hex", hex.as_bytes())]);
    let expected = refusal_line("raw", &sheet)
        + &refusal_line("hex", &sheet)
        + "2 sheets: 0 can be met, 0 cannot be met, 2 refused; 0 survivors\n";
    run(&folder, &["judge", "raw", "hex"]).is(2, &expected, "");
    for file in ["raw", "hex"] {
        run(&folder, &["judge", "--lines", file]).is(2, "refused 3 at 255\n", "");
    }
}

/// What is no sheet in hex text may be long.
#[test]
fn a_megabyte_of_blanks_and_comments() {
    let blanks = " \t\r\n".repeat(1 << 18);
    let comments = "# a comment of some length\n".repeat(40_000);
    let line = "#".repeat(1 << 20);
    let texts = [
        ("before", format!("{blanks}{S1}")),
        ("after", format!("{S1}{blanks}")),
        ("comments", format!("{comments}{S1} {comments}")),
        ("line", format!("{S1}{line}")),
    ];
    let folder = Folder::with(&texts);
    for (name, text) in &texts {
        run(&folder, &["judge", name]).is(0, OF_S1, "");
        run_on(&folder, &["judge", "-"], text.as_bytes()).is(0, OF_S1, "");
    }
}

/// What stands at the end of a megabyte still decides that it is no hex text.
#[test]
fn a_fault_after_a_megabyte() {
    let pairs = "01\n".repeat(1 << 18);
    let folder = Folder::with(&[("text", format!("{pairs}\n  0x\n"))]);
    let note = "lodhrussi: text: line 262146, column 4: 'x' is no hex digit; \
                taking the file as raw bytes\n";
    run(&folder, &["judge", "--lines", "text"]).is(2, "refused 1 at 0\n", note);
}

/// A device that never ends is not read to its end, once that is no hex text.
#[test]
fn an_endless_file() {
    let folder = Folder::new();
    run(&folder, &["judge", "--lines", "/dev/zero"]).is(2, "refused 1 at 0\n", "");
}

#[test]
fn names_of_files_that_are_no_text() {
    use std::ffi::OsStr;
    use std::os::unix::ffi::OsStrExt;
    let folder = Folder::new();
    let name = OsStr::from_bytes(b"s\xFF1.hex");
    fs::write(folder.path().join(name), S1).expect("a new file");
    let judge = OsStr::new("judge");
    run(&folder, &[judge, name]).is(0, OF_S1, "");
    let expected = "s\u{FFFD}1.hex: can be met, 16 of 32 pairings left\n\
                    s\u{FFFD}1.hex: can be met, 16 of 32 pairings left\n\
                    2 sheets: 2 can be met, 0 cannot be met, 0 refused; 32 survivors\n";
    run(&folder, &[judge, name, name]).is(0, expected, "");
}
