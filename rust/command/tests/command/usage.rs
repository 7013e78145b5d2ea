//! What may be asked and how: help, options, and what cannot be asked.

use crate::folder::Folder;
use crate::run::{lodhrussi, run, run_on, Ran};
use comparison::worked::{S1, S6};
use std::path::Path;

const HELP: [(&str, &str); 8] = [
    ("", include_str!("help/whole.txt")),
    ("judge", include_str!("help/judge.txt")),
    ("show", include_str!("help/show.txt")),
    ("strike", include_str!("help/strike.txt")),
    ("check", include_str!("help/check.txt")),
    ("draw", include_str!("help/draw.txt")),
    ("import", include_str!("help/import.txt")),
    ("export", include_str!("help/export.txt")),
];

#[test]
fn help() {
    let folder = Folder::new();
    for (subcommand, text) in HELP {
        let asked = ["--help", "-h"].map(|option| vec![subcommand, option]);
        for question in asked.into_iter().chain([vec!["help", subcommand]]) {
            let question: Vec<_> = question
                .into_iter()
                .filter(|word| !word.is_empty())
                .collect();
            run(&folder, &question).is(0, text, "");
        }
    }
    // It is help whatever else stands there.
    run(&folder, &["show", "none.hex", "--help"]).is(0, HELP[2].1, "");
}

/// Each example can be run at the root of the repository, and is answered.
#[test]
fn the_examples_of_the_help() {
    let root = Path::new(env!("CARGO_MANIFEST_DIR")).join("../..");
    let mut answers = Vec::new();
    for (_, text) in HELP {
        let (_, example) = text.split_once("\nExample:\n").expect("an example");
        let line = example.lines().next().expect("a line");
        let mut words = line.split_whitespace();
        assert_eq!(words.next(), Some("lodhrussi"));
        let output = lodhrussi().args(words).current_dir(&root).output();
        let ran = Ran::of(output.expect("the command runs"));
        assert_eq!(ran.err, "", "{line}");
        answers.push((
            ran.status,
            ran.out.lines().next().unwrap_or_default().to_string(),
        ));
    }
    let expected = [
        (0, "can be met"),
        (1, "sheets/s1.hex: can be met, 16 of 32 pairings left"),
        (0, "sheets/s6.hex: 12 bytes, 5 records"),
        (
            0,
            "32: struck by condition 6, sym: Its mirror image is missing.",
        ),
        (0, "keeps the sheet"),
        (
            0,
            "This plant of 18 items and 18 connections keeps every rule of the sheet; it has three \
             layers of 6 items, one for each survivor.",
        ),
        (0, "03 00      # 0  'reheat coil'"),
        (0, "Prefix(:=<http://example.org/coil#>)"),
    ];
    let expected = expected.map(|(status, line)| (Some(status), line.to_string()));
    assert_eq!(answers, expected);
}

#[test]
fn the_version() {
    let folder = Folder::new();
    let version = concat!("lodhrussi ", env!("CARGO_PKG_VERSION"), "\n");
    run(&folder, &["--version"]).is(0, version, "");
    run(&folder, &["-V"]).is(0, version, "");
}

/// Arguments that ask nothing, and what is said of them.
const WRONG: &[(&[&str], &str)] = &[
    (
        &[],
        "name a subcommand: judge, show, strike, check, draw, import or export",
    ),
    (&[""], "there is no subcommand ''"),
    (&["-"], "there is no subcommand '-'"),
    (&["weigh", "s1.hex"], "there is no subcommand 'weigh'"),
    (&["s1.hex"], "there is no subcommand 's1.hex'"),
    (&["Judge", "s1.hex"], "there is no subcommand 'Judge'"),
    (&["help", "me"], "there is no subcommand 'me'"),
    (&["--json", "judge", "s1.hex"], "there is no option --json"),
    (&["--", "judge", "s1.hex"], "there is no option --"),
    (
        &["judge"],
        "judge: name a FILE or several, or - for standard input",
    ),
    (
        &["judge", "--"],
        "judge: name a FILE or several, or - for standard input",
    ),
    (
        &["judge", "--json"],
        "judge: name a FILE or several, or - for standard input",
    ),
    (&["judge", "-x", "s1.hex"], "judge: there is no option -x"),
    (
        &["judge", "s1.hex", "--Lines"],
        "judge: there is no option --Lines",
    ),
    (
        &["judge", "--lines=1", "s1.hex"],
        "judge: there is no option --lines=1",
    ),
    (&["judge", "---", "s1.hex"], "judge: there is no option ---"),
    (
        &["judge", "--lines", "--json", "s1.hex"],
        "judge: --lines and --json are two forms; ask for one",
    ),
    (
        &["judge", "-", "s1.hex", "-"],
        "judge: standard input (-) can be read only once",
    ),
    (
        &["judge", "--names", "-", "-"],
        "judge: standard input (-) can be read only once",
    ),
    (
        &["show", "--names=-", "-"],
        "show: standard input (-) can be read only once",
    ),
    (
        &["judge", "s1.hex", "--jobs"],
        "judge: --jobs wants a number from 1 after it",
    ),
    (
        &["judge", "--jobs", "0", "s1.hex"],
        "judge: --jobs wants a number from 1 after it",
    ),
    (
        &["judge", "--jobs", "s1.hex"],
        "judge: --jobs wants a number from 1 after it",
    ),
    (
        &["judge", "--jobs=-1", "s1.hex"],
        "judge: --jobs wants a number from 1 after it",
    ),
    (
        &["judge", "--jobs=", "s1.hex"],
        "judge: --jobs wants a number from 1 after it",
    ),
    (
        &["judge", "s1.hex", "--names"],
        "judge: --names wants a FILE after it",
    ),
    (&["show"], "show: name a FILE, or - for standard input"),
    (
        &["show", "s1.hex", "s1.hex"],
        "show: name one FILE and no more",
    ),
    (
        &["show", "--lines", "s1.hex"],
        "show: there is no option --lines",
    ),
    (
        &["show", "--jobs", "2", "s1.hex"],
        "show: there is no option --jobs",
    ),
    (
        &["show", "s1.hex", "--names"],
        "show: --names wants a FILE after it",
    ),
    (&["strike"], "strike: name a FILE, or - for standard input"),
    (
        &["strike", "s1.hex"],
        "strike: name the NUMBER of a pairing or several",
    ),
    (
        &["strike", "s1.hex", "32", "x"],
        "strike: 'x' is no number of a pairing",
    ),
    (
        &["strike", "s1.hex", ""],
        "strike: '' is no number of a pairing",
    ),
    (
        &["strike", "s1.hex", "+1"],
        "strike: '+1' is no number of a pairing",
    ),
    (
        &["strike", "s1.hex", "1.0"],
        "strike: '1.0' is no number of a pairing",
    ),
    (
        &["strike", "s1.hex", "0x20"],
        "strike: '0x20' is no number of a pairing",
    ),
    (&["strike", "s1.hex", "-1"], "strike: there is no option -1"),
    (
        &["strike", "s1.hex", "--", "-1"],
        "strike: '-1' is no number of a pairing",
    ),
    (
        &["strike", "s1.hex", "18446744073709551616"],
        "strike: 18446744073709551616 is too large for a number of a pairing",
    ),
    (
        &["strike", "--lines", "s1.hex", "0"],
        "strike: there is no option --lines",
    ),
    (&["check"], "check: name a SHEET, or - for standard input"),
    (
        &["check", "s1.hex"],
        "check: name a PLANT, or - for standard input",
    ),
    (
        &["check", "s1.hex", "s1.plant", "s1.plant"],
        "check: name one SHEET, one PLANT and no more",
    ),
    (
        &["check", "-", "-"],
        "check: standard input (-) can be read only once",
    ),
    (
        &["check", "s1.hex", "-", "--names", "-"],
        "check: standard input (-) can be read only once",
    ),
    (
        &["check", "--lines", "s1.hex", "s1.plant"],
        "check: there is no option --lines",
    ),
    (&["draw"], "draw: name a FILE, or - for standard input"),
    (
        &["draw", "--svg", "s1.hex"],
        "draw: name a FILE, or - for standard input",
    ),
    (
        &["draw", "s1.hex", "s1.svg"],
        "draw: name one FILE and no more",
    ),
    (
        &["draw", "s1.hex", "--svg"],
        "draw: --svg wants an OUT after it",
    ),
    (
        &["draw", "--dot", "s1.hex", "--svg=s1.svg"],
        "draw: --dot and --svg are two forms; ask for one",
    ),
    (
        &["draw", "--dot", "--json", "--records", "s1.hex"],
        "draw: --records and --dot are two forms; ask for one",
    ),
    (
        &["draw", "--lines", "s1.hex"],
        "draw: there is no option --lines",
    ),
    (
        &["draw", "--dot=s1.dot", "s1.hex"],
        "draw: there is no option --dot=s1.dot",
    ),
    (
        &["check", "--dot", "s1.hex", "s1.plant"],
        "check: there is no option --dot",
    ),
    (&["import"], "import: name a FILE, or - for standard input"),
    (
        &["import", "s1.hex", "s1.hex"],
        "import: name one FILE and no more",
    ),
    (
        &["import", "--ontology", "a:b", "s1.hex"],
        "import: there is no option --ontology",
    ),
    (&["export"], "export: name a FILE, or - for standard input"),
    (
        &["export", "s1.hex", "-"],
        "export: name one FILE and no more",
    ),
    (
        &["export", "--names", "-", "-"],
        "export: standard input (-) can be read only once",
    ),
    (
        &["export", "s1.hex", "--ontology"],
        "export: --ontology wants an IRI such as http://example.org/coil after it",
    ),
    (
        &["export", "--ontology", "s1.hex"],
        "export: 's1.hex' is no IRI; \
         --ontology wants an IRI such as http://example.org/coil after it",
    ),
    (
        &["export", "--ontology=a:b c", "s1.hex"],
        "export: 'a:b c' is no IRI; \
         --ontology wants an IRI such as http://example.org/coil after it",
    ),
];

#[test]
fn what_cannot_be_asked() {
    let folder = Folder::with(&[("s1.hex", S1)]);
    for (arguments, sentence) in WRONG {
        let subcommand = sentence.split_once(": ").map(|(word, _)| word);
        let help = match subcommand.filter(|word| !word.contains(' ')) {
            Some(subcommand) => format!("lodhrussi {subcommand} --help"),
            None => "lodhrussi --help".into(),
        };
        let err = format!("lodhrussi: {sentence}; {help} tells how to ask\n");
        run(&folder, arguments).is(3, "", &err);
    }
}

const S1_LINES: &str =
    "traits 1 fresh 0 some 1 only 0 links 1\nopening 32 survivors 16\ncan be met\n";

#[test]
fn options_stand_anywhere() {
    let folder = Folder::with(&[("s1.hex", S1), ("--lines", S6), ("-x", S6)]);
    run(&folder, &["judge", "s1.hex", "--lines"]).is(0, S1_LINES, "");
    run(&folder, &["judge", "--lines", "--", "s1.hex"]).is(0, S1_LINES, "");
    run(&folder, &["judge", "--lines", "--lines", "s1.hex"]).is(0, S1_LINES, "");
    run(
        &folder,
        &["judge", "--jobs=1", "--lines", "--jobs", "2", "s1.hex"],
    )
    .is(0, S1_LINES, "");
    let several = "0 met 16\n1 met 16\nsheets 2 met 2 unmet 0 refused 0 survivors 32\n";
    run(&folder, &["judge", "s1.hex", "--lines", "s1.hex"]).is(0, several, "");
}

/// After `--` every argument is a file, or a number.
#[test]
fn operands_that_look_like_options() {
    let folder = Folder::with(&[("--lines", S1), ("-x", S1), ("--", S1)]);
    for file in ["--lines", "-x", "--"] {
        run(&folder, &["judge", "--lines", "--", file]).is(0, S1_LINES, "");
        let dotted = format!("./{file}");
        run(&folder, &["judge", &dotted, "--lines"]).is(0, S1_LINES, "");
        let absent = "2: absent\n  left marks none\n  links none\n  right marks some k0 . t0\n";
        run(&folder, &["strike", "--", file, "2"]).is(0, absent, "");
    }
    let missing = "lodhrussi: there is no file --json\n";
    run(&folder, &["judge", "--", "--json"]).is(3, "", missing);
}

/// Standard input is no file's name, and a file of that name is had by its path.
#[test]
fn standard_input_and_a_file_of_its_name() {
    let folder = Folder::with(&[("-", S6)]);
    run_on(&folder, &["judge", "--lines", "--", "-"], S1.as_bytes()).is(0, S1_LINES, "");
    let of_s6 = "traits 1 fresh 1 some 1 only 0 links 1\nopening 144 survivors 85\ncan be met\n";
    run_on(&folder, &["judge", "--lines", "./-"], S1.as_bytes()).is(0, of_s6, "");
}
