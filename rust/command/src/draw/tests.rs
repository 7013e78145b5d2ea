use super::*;

/// k0 reversed is within k0: two survivors, with k0 neither way and both ways.
const BOTH_WAYS: &str = "10 00 11 00 21 01 00";

/// What is drawn.
#[track_caller]
fn drawn(sheet: &Sheet, form: &Drawing) -> String {
    let mut out = Vec::new();
    let status = draw(sheet, form, &mut out).expect("a list can be written");
    assert_eq!(status, Status::Answered);
    String::from_utf8(out).expect("text")
}

#[test]
fn numbers_in_words() {
    assert_eq!(numbers(&[]), []);
    assert_eq!(numbers(&[0, 0]), []);
    assert_eq!(numbers(&[1 << 63 | 1, 2]), [0, 63, 65]);
    assert_eq!(numbers(&[0, 1 << 63]), [127]);
    assert_eq!(numbers(&[u64::MAX; 3]), (0..192).collect::<Vec<_>>());
}

/// Columns are as wide as letters, which may be of several bytes.
#[test]
fn names_in_any_letters() {
    let sheet = Sheet::of_hex(BOTH_WAYS, "k0 = fü", false);
    let expected = "\
This plant of 6 items and 12 connections keeps every rule of the sheet; it has three layers \
of 2 items, one for each survivor.

item  layer  survivor   pairing  traits
   0      0         0         0  none
   1      0         1         3  none
   2      1         0         0  none
   3      1         1         3  none
   4      2         0         0  none
   5      2         1         3  none

from  link  to
   0  fü    3
   1  fü    3, 4, 5
   2  fü    5
   3  fü    0, 1, 5
   4  fü    1
   5  fü    1, 2, 3
";
    assert_eq!(drawn(&sheet, &Drawing::Table), expected);
    let edge = "  0 -> 3 [label=\"fü\", dir=both];\n";
    assert!(drawn(&sheet, &Drawing::Dot).contains(edge));
}

#[test]
fn an_object() {
    let expected = concat!(
        r#"{"file":"sheet.hex","answer":"drawn","survivors":1,"items":3,"connections":0,"#,
        r#""item_list":[{"item":0,"layer":0,"survivor":0,"pairing":0,"traits":[],"fresh":[]},"#,
        r#"{"item":1,"layer":1,"survivor":0,"pairing":0,"traits":[],"fresh":[]},"#,
        r#"{"item":2,"layer":2,"survivor":0,"pairing":0,"traits":[],"fresh":[]}],"#,
        r#""connection_list":[]}"#,
        "\n",
    );
    assert_eq!(
        drawn(&Sheet::of_hex("", "", true), &Drawing::Json),
        expected
    );
}

#[test]
fn a_standard_output_that_cannot_be_written() {
    const NOTHING: &str = "01 02 20 00 01";
    for (form, json) in [
        (Drawing::Table, false),
        (Drawing::Records, false),
        (Drawing::Dot, false),
        (Drawing::Json, true),
    ] {
        for hex in [BOTH_WAYS, NOTHING, "03 04", "04 00"] {
            let mut full: &mut [u8] = &mut [0; 10];
            let error = draw(&Sheet::of_hex(hex, "", json), &form, &mut full).expect_err("no room");
            assert_eq!(error.kind(), io::ErrorKind::WriteZero);
        }
    }
}
