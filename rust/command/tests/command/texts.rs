//! Hex text and raw bytes.

use crate::folder::Folder;
use crate::run::{run, run_on};
use crate::sheets::{has_control, hex_text, is_hex_text};
use comparison::random::Random;
use comparison::worked::{from_hex, S1};
use comparison::{damage, made_up};

const OF_EMPTY: &str =
    "traits 0 fresh 0 some 0 only 0 links 0\nopening 1 survivors 1\ncan be met\n";
const OF_S1: &str = "traits 1 fresh 0 some 1 only 0 links 1\nopening 32 survivors 16\ncan be met\n";

/// Asserts what `judge --lines` prints of a file, and of it as standard input.
#[track_caller]
fn assert_lines(bytes: impl AsRef<[u8]>, lines: &str) {
    let folder = Folder::with(&[("file", &bytes)]);
    let status = if lines.starts_with("refused") { 2 } else { 0 };
    run(&folder, &["judge", "--lines", "file"]).is(status, lines, "");
    run_on(&folder, &["judge", "--lines", "-"], bytes.as_ref()).is(status, lines, "");
}

/// Asserts that a text is taken as raw bytes, which no sheet begins with, and
/// what is said of that.
#[track_caller]
fn assert_no_hex(text: &str, fault: &str) {
    let folder = Folder::with(&[("file", text)]);
    let of_file = format!("lodhrussi: file: {fault}; taking the file as raw bytes\n");
    run(&folder, &["judge", "--lines", "file"]).is(2, "refused 1 at 0\n", &of_file);
    let of_input = format!("lodhrussi: standard input: {fault}; taking it as raw bytes\n");
    let arguments = ["judge", "--lines", "-"];
    run_on(&folder, &arguments, text.as_bytes()).is(2, "refused 1 at 0\n", &of_input);
}

#[test]
fn layouts_of_hex_text() {
    let layouts = [
        "01 10 00 03 00 07 01 02 20 00 03",
        "0110000300070102200003",
        "01 1000 0300 070102 200003\n",
        "01\t10\t00\t03\t00\t07\t01\t02\t20\t00\t03\t",
        "01\r\n10 00\r\n03 00\r\n07 01 02\r\n20 00 03\r\n",
        "01\r10 00\r03 00\r07 01 02\r20 00 03",
        "\n\n01\x0B10 00\x0C03 00 07 01 02 20 00 03\n\n",
        "\u{FEFF}01 10 00 03 00 07 01 02 20 00 03",
        "\u{FEFF}# S1\r\n01#everything\r\n10 00 # link 0\r\n03 00 07 01 02 20 00 03 # # 0G \u{1}",
        "# 01 02\n#\n01 10 00 03 00 07 01 02 20 00 03#20",
    ];
    for layout in layouts {
        assert_lines(layout, OF_S1);
    }
}

#[test]
fn texts_without_a_byte() {
    for text in [
        "",
        "\n",
        " \t\r\n\x0B\x0C",
        "#",
        "# nothing\n# at all",
        "\u{FEFF}",
        "\u{FEFF}\n#",
    ] {
        assert_lines(text, OF_EMPTY);
    }
}

#[test]
fn letters_of_both_cases() {
    assert_lines("03 0b", "refused 10 at 0\n");
    assert_lines("03 0B", "refused 10 at 0\n");
    assert_lines("fF", "refused 1 at 0\n");
    assert_lines("01 Fa", "refused 1 at 1\n");
}

/// Text of which some digits stand alone, or that is no hex at all.
const WITH_FAULT: &[(&str, &str)] = &[
    (
        "0",
        "line 1, column 1: the hex digit '0' stands alone, and a byte takes two",
    ),
    (
        "01 1",
        "line 1, column 4: the hex digit '1' stands alone, and a byte takes two",
    ),
    (
        "01 1 0",
        "line 1, column 4: the hex digit '1' stands alone, and a byte takes two",
    ),
    (
        "011",
        "line 1, column 3: the hex digit '1' stands alone, and a byte takes two",
    ),
    (
        "01 # a\r\n\r\n\ta\r\n",
        "line 3, column 2: the hex digit 'a' stands alone, and a byte takes two",
    ),
    (
        "01 F# 10",
        "line 1, column 4: the hex digit 'F' stands alone, and a byte takes two",
    ),
    (
        "\u{FEFF}0\n0",
        "line 1, column 1: the hex digit '0' stands alone, and a byte takes two",
    ),
    ("# S1\n01\n\n10 0G", "line 4, column 5: 'G' is no hex digit"),
    ("0x01", "line 1, column 2: 'x' is no hex digit"),
    ("01,02", "line 1, column 3: ',' is no hex digit"),
    (
        "every t0 is some k0 . t1",
        "line 1, column 2: 'v' is no hex digit",
    ),
    (
        "01 \u{A0}02",
        "line 1, column 4: the byte C2 is no hex digit",
    ),
    ("01 // 02", "line 1, column 4: '/' is no hex digit"),
];

#[test]
fn texts_with_a_fault() {
    for (text, fault) in WITH_FAULT {
        assert_no_hex(text, fault);
    }
}

/// Every subcommand and form says so, in its turn.
#[test]
fn the_note_in_every_form() {
    let folder = Folder::with(&[("s1.hex", S1), ("text", "0G")]);
    let note = "lodhrussi: text: line 1, column 2: 'G' is no hex digit; \
                taking the file as raw bytes\n";
    let questions: [&[&str]; 8] = [
        &["judge", "text"],
        &["judge", "--json", "text"],
        &["judge", "s1.hex", "text"],
        &["judge", "--lines", "s1.hex", "text"],
        &["show", "text"],
        &["show", "--json", "text"],
        &["strike", "text", "0"],
        &["strike", "--json", "text", "0"],
    ];
    for question in questions {
        let ran = run(&folder, question);
        assert_eq!((ran.status, &ran.err[..]), (Some(2), note), "{question:?}");
    }
}

#[test]
fn raw_bytes() {
    let sheet = from_hex(S1);
    assert_lines(&sheet, OF_S1);
    // Cut, with a line end that an editor added, and with a zero.
    assert_lines(&sheet[..7], "refused 2 at 5\n");
    assert_lines([&sheet[..], b"\n"].concat(), "refused 1 at 11\n");
    assert_lines([&sheet[..], &[0]].concat(), "refused 1 at 11\n");
    assert_lines([0], "refused 1 at 0\n");
    assert_lines([0x20, 0, 0], "refused 5 at 1\n");
}

/// A text with a control character outside of its comments is no text, and
/// nothing is said of that.
#[test]
fn texts_with_control_characters() {
    assert_lines("01 02\u{1}", "refused 1 at 0\n");
    assert_lines("\u{0}01", "refused 1 at 0\n");
    assert_lines("01\u{1B}", "refused 1 at 0\n");
}

/// The same answer, raw and in any layout.
#[test]
fn round_trips() {
    let mut random = Random::seeded(81);
    let folder = Folder::new();
    let mut compared = 0;
    for turn in 0..150 {
        let sheet = match turn % 3 {
            0 => made_up::sheet(&mut random).bytes,
            1 => made_up::small_sheet(6, &mut random),
            _ => damage::damaged(&mut random),
        };
        if is_hex_text(&sheet) || !has_control(&sheet) {
            continue;
        }
        let text = hex_text(&sheet, &mut random);
        assert!(is_hex_text(&text));
        let arguments = ["judge", "--lines", "-"];
        let of_raw = run_on(&folder, &arguments, &sheet);
        let status = of_raw.status.expect("an exit status");
        run_on(&folder, &arguments, &text).is(status, &of_raw.out, &of_raw.err);
        compared += 1;
    }
    assert!(compared >= 100, "{compared} sheets");
}
