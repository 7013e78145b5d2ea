use super::*;
use comparison::random::Random;
use comparison::worked::{from_hex, JUDGED, S1, S3, S4, S5, S6};
use comparison::{made_up, Judging, Reference};

fn sheet(bytes: &[u8], names: &str, json: bool) -> Sheet {
    Sheet {
        file: "sheet.hex".into(),
        bytes: bytes.into(),
        refusal: None,
        names: Names::parse(names).expect("names"),
        json,
    }
}

/// What is told of strikes.
fn told_of(sheet: &Sheet, numbers: &[u64]) -> (String, Status) {
    let mut out = Vec::new();
    let status = strike(sheet, numbers, &mut out).expect("a list can be written");
    (String::from_utf8(out).expect("text"), status)
}

#[track_caller]
fn assert_told(hex: &str, names: &str, numbers: &[u64], status: Status, expected: &str) {
    let told = told_of(&sheet(&from_hex(hex), names, false), numbers);
    assert_eq!(told, (expected.into(), status));
}

#[test]
fn strikes_in_turn() {
    let expected = "32: struck by condition 6, sym: Its mirror image is missing.
  left marks some k0 . t0
  links none
  right marks none
34: kept
  left marks some k0 . t0
  links none
  right marks some k0 . t0
2: absent
  left marks none
  links none
  right marks some k0 . t0
64: refused 11: The pairing number is too large: the sheet has no pairing of that number. \
With 2 marks and 1 link the pairings are numbered 0 to 63.
32: absent
  left marks some k0 . t0
  links none
  right marks none
63: kept
  left marks t0, some k0 . t0
  links k0, k0 reversed
  right marks t0, some k0 . t0
";
    assert_told(S1, "", &[32, 34, 2, 64, 32, 63], Status::Refused, expected);
}

#[test]
fn strikes_as_objects() {
    let sheet = sheet(&from_hex(S1), "t0 = reheat coil\nk0 = feeds", true);
    let rows = [
        concat!(
            r#"{"file":"sheet.hex","answer":"struck","pairing":32,"condition":6,"name":"sym","#,
            r#""sentence":"Its mirror image is missing.","#,
            r#""left":[{"mark":1,"text":"some feeds . 'reheat coil'"}],"links":[],"right":[]}"#,
        ),
        concat!(
            r#"{"file":"sheet.hex","answer":"kept","pairing":59,"#,
            r#""left":[{"mark":0,"text":"'reheat coil'"},"#,
            r#"{"mark":1,"text":"some feeds . 'reheat coil'"}],"#,
            r#""links":[{"link":0,"reversed":true,"text":"feeds reversed"}],"#,
            r#""right":[{"mark":0,"text":"'reheat coil'"},"#,
            r#"{"mark":1,"text":"some feeds . 'reheat coil'"}]}"#,
        ),
        concat!(
            r#"{"file":"sheet.hex","answer":"absent","pairing":0,"#,
            r#""left":[],"links":[],"right":[]}"#,
        ),
        concat!(
            r#"{"file":"sheet.hex","answer":"refused","number":11,"place":0,"#,
            r#""sentence":"The pairing number is too large: the sheet has no pairing of that "#,
            r#"number. With 2 marks and 1 link the pairings are numbered 0 to 63.","#,
            r#""pairing":18446744073709551615}"#,
        ),
    ];
    let expected = format!("{}\n", rows.join("\n"));
    let told = told_of(&sheet, &[32, 59, 0, u64::MAX]);
    assert_eq!(told, (expected, Status::Refused));
}

#[test]
fn the_conditions_that_need_a_partner() {
    let expected = "8: struck by condition 4, delex: A partner for a 'some' claim is missing.
  left marks some feeds . nothing
  links none
  right marks none
";
    assert_told(S4, "k0 = feeds", &[8], Status::Answered, expected);
    let expected = "16: struck by condition 5, deluni: The left side lacks an 'only' claim, \
and a partner that would break it is missing.
  left marks t0
  links none
  right marks none
";
    assert_told(S5, "", &[16], Status::Answered, expected);
}

#[test]
fn a_pairing_that_breaks_a_link_rule_does_not_open() {
    let expected = "1: absent
  left marks none
  links feeds
  right marks none
5: kept
  left marks none
  links feeds, supplies
  right marks none
";
    let names = "k0 = feeds\nk1 = supplies";
    let sheet = "10 00 10 01 21 00 01";
    assert_told(sheet, names, &[1, 5], Status::Answered, expected);
}

#[test]
fn fresh_names_are_told_as_their_fillers() {
    let expected = "255: absent
  left marks 'reheat coil', some feeds . not 'reheat coil', not 'reheat coil'
  links feeds, feeds reversed
  right marks 'reheat coil', some feeds . not 'reheat coil', not 'reheat coil'
12: absent
  left marks none
  links feeds
  right marks not 'reheat coil'
";
    let names = "t0 = reheat coil\nk0 = feeds";
    assert_told(S6, names, &[255, 12], Status::Answered, expected);
}

#[test]
fn the_sheet_of_no_bytes() {
    let expected = "0: kept
  left marks none
  links none
  right marks none
1: refused 11: The pairing number is too large: the sheet has no pairing of that number. \
With 0 marks and 0 links the pairings are numbered 0 to 0.
";
    assert_told("", "", &[0, 1], Status::Refused, expected);
}

#[test]
fn a_sheet_that_is_refused() {
    let expected = "sheet.hex: refused 5 at byte 1
The reference at byte 1 names no earlier record. Byte 1 is 00, the only reference of record 0 \
(04, not of a class, at byte 0): it names record 0, and no record comes before.
  record 0 at byte 0:  04 00  not of a class
                          ^^  only reference: found record 0; wanted an earlier class
";
    assert_told("04 00", "", &[0, 1], Status::Refused, expected);
    let told = told_of(&sheet(&from_hex("04 00"), "", true), &[0, 1]);
    let expected = concat!(
        r#"{"file":"sheet.hex","answer":"refused","number":5,"place":1,"sentence":"The reference "#,
        r#"at byte 1 names no earlier record. Byte 1 is 00, the only reference of record 0 (04, "#,
        r#"not of a class, at byte 0): it names record 0, and no record comes before."}"#,
        "\n"
    );
    assert_eq!(told, (expected.into(), Status::Refused));
}

#[test]
fn a_domino_is_put_together_again() {
    for ([traits, fresh, some, only], marks, links) in [
        ([0, 0, 0, 0], 0, 0),
        ([1, 0, 0, 0], 1, 0),
        ([0, 0, 0, 0], 0, 1),
        ([1, 0, 1, 0], 2, 1),
        ([0, 1, 1, 1], 3, 1),
        ([1, 0, 0, 2], 3, 2),
        ([0, 0, 0, 1], 1, 4),
        ([3, 4, 1, 4], 12, 0),
    ] {
        let counts = Counts {
            traits,
            fresh,
            some,
            only,
            links,
        };
        let dominoes = 1_u64 << (2 * (marks + links));
        let step = usize::try_from(dominoes / 4096).expect("a step").max(1);
        for number in (0..dominoes).step_by(step) {
            let Domino { left, roles, right } = Domino::of(number, counts);
            assert!(left < 1 << marks && right < 1 << marks && roles < 1 << (2 * links));
            let together = (left << (2 * links + marks)) + (roles << marks) + right;
            assert_eq!(together, number);
        }
    }
}

/// The first word of each line about a number.
fn verdicts(text: &str) -> Vec<String> {
    let lines = text.lines().filter(|line| !line.starts_with("  "));
    let verdicts = lines.filter_map(|line| line.split_once(": "));
    verdicts
        .map(|(_, said)| said.chars().take(23).collect())
        .collect()
}

/// Every number of worked and of made-up sheets, in turn, against the
/// reference.
#[test]
fn the_verdicts_are_those_of_the_reference() {
    use reference::Verdict::{Absent, Kept, Struck};
    let mut random = Random::seeded(9);
    let worked = JUDGED.map(|row| from_hex(row.0));
    let made_up = (0..40).map(|_| made_up::small_sheet(4, &mut random));
    for bytes in worked.into_iter().chain(made_up.collect::<Vec<_>>()) {
        let counts = lodhrussi::read(&bytes).expect("a sheet without faults");
        let numbers: Vec<_> = (0..1 << (2 * (counts.marks() + counts.links))).collect();
        let mut set = vec![0; words_needed(counts)];
        Reference.open(&bytes, &mut set).expect("an opened set");
        let expected = numbers.iter().map(|&number| {
            let strike = Reference.strike(&bytes, &mut set, number);
            match strike.expect("a verdict").verdict {
                Absent => "absent".into(),
                Struck { condition } => format!("struck by condition {condition}, "),
                Kept => "kept".into(),
            }
        });
        let expected: Vec<_> = expected.collect();
        let (text, status) = told_of(&sheet(&bytes, "", false), &numbers);
        assert_eq!((verdicts(&text), status), (expected, Status::Answered));
    }
}

#[test]
fn a_standard_output_that_cannot_be_written() {
    let mut full: &mut [u8] = &mut [0; 40];
    let sheet = sheet(&from_hex(S3), "", false);
    let error = strike(&sheet, &[0, 1, 2], &mut full).expect_err("no room");
    assert_eq!(error.kind(), io::ErrorKind::WriteZero);
}
