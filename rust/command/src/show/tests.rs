use super::*;
use crate::names::Names;
use comparison::damage::damaged;
use comparison::made_up;
use comparison::random::Random;
use comparison::worked::{from_hex, N8, S3, S4, S6};

/// What is shown of a sheet.
fn shown(bytes: &[u8], names: &str, json: bool) -> (String, Status) {
    let sheet = Sheet {
        file: "sheet.hex".into(),
        bytes: bytes.into(),
        refusal: None,
        names: Names::parse(names).expect("names"),
        json,
    };
    let mut out = Vec::new();
    let status = show(&sheet, &mut out).expect("a list can be written");
    (String::from_utf8(out).expect("text"), status)
}

#[track_caller]
fn assert_shown(hex: &str, names: &str, status: Status, expected: &str) {
    let shown = shown(&from_hex(hex), names, false);
    assert_eq!(shown, (expected.into(), status));
}

#[track_caller]
fn assert_object(hex: &str, names: &str, status: Status, fields: &[&str]) {
    let expected = format!("{{\"file\":\"sheet.hex\",{}}}\n", fields.join(","));
    let shown = shown(&from_hex(hex), names, true);
    assert_eq!(shown, (expected, status));
}

#[test]
fn no_bytes() {
    let expected = "sheet.hex: 0 bytes, 0 records

no rules

marks 0 (traits 0, fresh 0, some 0, only 0), links 0
";
    assert_shown("", "", Status::Answered, expected);
    let fields = [
        r#""answer":"shown","bytes":0,"records":[],"rules":[]"#,
        r#""traits":0,"fresh":0,"some":0,"only":0,"links":0,"marks":0,"mark_list":[]"#,
    ];
    assert_object("", "", Status::Answered, &fields);
}

#[test]
fn a_sheet_with_a_fresh_name() {
    let expected = "sheet.hex: 12 bytes, 5 records
record  byte  bytes     kind            stands for
     0     0  03 00     trait           t0
     1     2  10 00     link as named   k0
     2     4  04 00     not of a class  not t0
     3     6  07 01 02  some            some k0 . not t0
     4     9  20 00 03  rule            every t0 is some k0 . not t0

rules
  every t0 is some k0 . not t0

marks 3 (traits 1, fresh 1, some 1, only 0), links 1
mark  kind   record  nots  stands for
   0  trait       -  -     t0
   1  some        3  even  some k0 . not t0
   2  fresh       2  even  not t0
";
    assert_shown(S6, "", Status::Answered, expected);
}

#[test]
fn a_sheet_with_two_rules_and_names() {
    let expected = "sheet.hex: 20 bytes, 9 records
record  byte  bytes     kind            stands for
     0     0  01        everything      everything
     1     1  10 00     link as named   feeds
     2     3  03 00     trait           'reheat coil'
     3     5  07 01 02  some            some feeds . 'reheat coil'
     4     8  20 00 03  rule            every everything is some feeds . 'reheat coil'
     5    11  11 00     link reversed   feeds reversed
     6    13  02        nothing         nothing
     7    14  08 05 06  only            only feeds reversed . nothing
     8    17  20 02 07  rule            every 'reheat coil' is only feeds reversed . nothing

rules
  every everything is some feeds . 'reheat coil'
  every 'reheat coil' is only feeds reversed . nothing

marks 3 (traits 1, fresh 0, some 1, only 1), links 1
mark  kind   record  nots  stands for
   0  trait       -  -     'reheat coil'
   1  some        3  even  some feeds . 'reheat coil'
   2  only        7  even  only feeds reversed . nothing
";
    let names = "t0 = reheat coil\nk0 = feeds";
    assert_shown(S3, names, Status::Answered, expected);
}

#[test]
fn a_restriction_under_a_not() {
    let expected = "sheet.hex: 10 bytes, 5 records
record  byte  bytes     kind            stands for
     0     0  10 00     link as named   k0
     1     2  01        everything      everything
     2     3  08 00 01  only            only k0 . everything
     3     6  02        nothing         nothing
     4     7  20 02 03  rule            every only k0 . everything is nothing

rules
  every only k0 . everything is nothing

marks 1 (traits 0, fresh 0, some 1, only 0), links 1
mark  kind   record  nots  stands for
   0  some        2  odd   some k0 . nothing
";
    assert_shown(S4, "", Status::Answered, expected);
    let fields = [
        r#""answer":"shown","bytes":10,"records":[{"record":0,"byte":0,"bytes":"10 00""#,
        r#""kind":"link as named","text":"on","used":true},{"record":1,"byte":2"#,
        r#""bytes":"01","kind":"everything","text":"everything","used":true}"#,
        r#"{"record":2,"byte":3,"bytes":"08 00 01","kind":"only","text":"only on . everything""#,
        r#""used":true},{"record":3,"byte":6,"bytes":"02","kind":"nothing","text":"nothing""#,
        r#""used":true},{"record":4,"byte":7,"bytes":"20 02 03","kind":"rule""#,
        r#""text":"every only on . everything is nothing","used":true}]"#,
        r#""rules":["every only on . everything is nothing"],"traits":0,"fresh":0,"some":1"#,
        r#""only":0,"links":1,"marks":1"#,
        r#""mark_list":[{"mark":0,"kind":"some","record":2,"nots":"odd""#,
        r#""text":"some on . nothing"}]"#,
    ];
    assert_object(S4, "k0 = on", Status::Answered, &fields);
}

#[test]
fn a_sheet_with_a_link_rule() {
    let expected = "sheet.hex: 21 bytes, 9 records
record  byte  bytes     kind            stands for
     0     0  01        everything      everything
     1     1  10 00     link as named   feeds
     2     3  10 01     link as named   supplies
     3     5  02        nothing         nothing
     4     6  07 01 00  some            some feeds . everything
     5     9  20 00 04  rule            every everything is some feeds . everything
     6    12  08 02 03  only            only supplies . nothing
     7    15  20 00 06  rule            every everything is only supplies . nothing
     8    18  21 01 02  link rule       feeds within supplies

rules
  every everything is some feeds . everything
  every everything is only supplies . nothing
  feeds within supplies

marks 2 (traits 0, fresh 0, some 1, only 1), links 2
mark  kind   record  nots  stands for
   0  some        4  even  some feeds . everything
   1  only        6  even  only supplies . nothing
";
    let names = "k0 = feeds\nk1 = supplies";
    assert_shown(N8, names, Status::Answered, expected);
    let fields = [
        r#""answer":"shown","bytes":9,"records":[{"record":0,"byte":0,"bytes":"10 00""#,
        r#""kind":"link as named","text":"k0","used":true},{"record":1,"byte":2"#,
        r#""bytes":"11 00","kind":"link reversed","text":"k0 reversed","used":true}"#,
        r#"{"record":2,"byte":4,"bytes":"12 01","kind":"not of a link""#,
        r#""text":"not k0 reversed","used":true},{"record":3,"byte":6,"bytes":"21 00 02""#,
        r#""kind":"link rule","text":"k0 within not k0 reversed","used":true}]"#,
        r#""rules":["k0 within not k0 reversed"],"traits":0,"fresh":0,"some":0"#,
        r#""only":0,"links":1,"marks":0"#,
        r#""mark_list":[]"#,
    ];
    assert_object("10 00 11 00 12 01 21 00 02", "", Status::Answered, &fields);
}

#[test]
fn records_that_no_rule_reaches() {
    let hex = "03 00 03 01 04 00 04 02 10 00 20 00 01";
    let expected = "sheet.hex: 13 bytes, 6 records
record  byte  bytes     kind            stands for
     0     0  03 00     trait           t0
     1     2  03 01     trait           t1
     2     4  04 00     not of a class  not t0 (unused)
     3     6  04 02     not of a class  not not t0 (unused)
     4     8  10 00     link as named   k0 (unused)
     5    10  20 00 01  rule            every t0 is t1

rules
  every t0 is t1

marks 2 (traits 2, fresh 0, some 0, only 0), links 1
mark  kind   record  nots  stands for
   0  trait       -  -     t0
   1  trait       -  -     t1
";
    assert_shown(hex, "", Status::Answered, expected);
    let expected = "sheet.hex: 1 byte, 1 record
record  byte  bytes     kind            stands for
     0     0  02        nothing         nothing (unused)

no rules

marks 0 (traits 0, fresh 0, some 0, only 0), links 0
";
    assert_shown("02", "", Status::Answered, expected);
    let fields = [
        r#""answer":"shown","bytes":2,"records":[{"record":0,"byte":0,"bytes":"03 00""#,
        r#""kind":"trait","text":"t0","used":false}],"rules":[],"traits":1,"fresh":0"#,
        r#""some":0,"only":0,"links":0,"marks":1"#,
        r#""mark_list":[{"mark":0,"kind":"trait","trait":0,"text":"t0"}]"#,
    ];
    assert_object("03 00", "", Status::Answered, &fields);
}

const NAMED_TWICE: &str = "03 00 04 00 05 01 01 20 00 00";

#[test]
fn a_sheet_with_a_faulty_record() {
    let expected = "sheet.hex: 10 bytes, 2 records before the fault
record  byte  bytes     kind            stands for
     0     0  03 00     trait           coil
     1     2  04 00     not of a class  not coil
     2     4  05 01 01  and of classes  (at fault)

sheet.hex: refused 7 at byte 6
The reference at byte 6 names a record that was named before and may be named only once. \
Byte 6 is 01, the second reference of record 2 (05, and of classes, at byte 4): \
it names record 1 (04, not of a class, at byte 2), which the reference at byte 5 named before.
  record 2 at byte 4:  05 01 01  and of classes
                             ^^  second reference: found record 1, named before; \
wanted a class not named before
  record 2 at byte 4:  05 01 01  and of classes
                          ^^     first reference: names record 1 before
";
    assert_shown(NAMED_TWICE, "t0 = coil", Status::Refused, expected);
    let sentence = "The reference at byte 6 names a record that was named before and may be \
        named only once. Byte 6 is 01, the second reference of record 2 (05, and of classes, \
        at byte 4): it names record 1 (04, not of a class, at byte 2), \
        which the reference at byte 5 named before.";
    let fields = [
        r#""answer":"refused","number":7,"place":6"#,
        &format!("\"sentence\":\"{sentence}\""),
        r#""bytes":10,"records":[{"record":0,"byte":0,"bytes":"03 00","kind":"trait""#,
        r#""text":"t0"},{"record":1,"byte":2,"bytes":"04 00","kind":"not of a class""#,
        r#""text":"not t0"},{"record":2,"byte":4,"bytes":"05 01 01","kind":"and of classes"}]"#,
    ];
    assert_object(NAMED_TWICE, "", Status::Refused, &fields);
}

#[test]
fn a_first_record_of_no_known_kind() {
    let expected = "sheet.hex: 3 bytes, 0 records before the fault
record  byte  bytes     kind            stands for
     0     0  00        no known kind   (at fault)

sheet.hex: refused 1 at byte 0
The record at byte 0 is of no known kind. \
Byte 0 is 00 and begins record 0; the kinds are 01 to 08, 10 to 14, 20 and 21.
  record 0 at byte 0:  00  no known kind
                       ^^  kind: found 00; wanted 01 to 08, 10 to 14, 20 and 21
";
    assert_shown("00 01 02", "", Status::Refused, expected);
}

#[test]
fn a_sheet_with_too_many_marks() {
    let expected = "sheet.hex: 7 bytes, 3 records
record  byte  bytes     kind            stands for
     0     0  03 0B     trait           t11
     1     2  10 00     link as named   k0 (unused)
     2     4  20 00 00  rule            every t11 is t11

sheet.hex: refused 9
The sheet has more than 12 marks and links together. \
It has 12 traits and 1 link, counted by their largest numbers; \
the other marks come from the some and only claims of its rules.
";
    assert_shown("03 0B 10 00 20 00 00", "", Status::Refused, expected);
}

#[test]
fn a_sheet_of_which_not_all_is_known() {
    let mut sheet = vec![0x01; 255];
    sheet.resize(MOST, 0x05);
    let (text, status) = shown(&sheet, "", false);
    assert_eq!(status, Status::Refused);
    let lines: Vec<_> = text.lines().collect();
    let first = "sheet.hex: more than 765 bytes, 255 records before the fault";
    assert_eq!(lines[0], first);
    assert_eq!(lines.len(), 2 + 256 + 1 + 4);
    let last = "   255   255  05 05 05  and of classes  (at fault)";
    assert_eq!(lines[257], last);
    let (object, _) = shown(&sheet, "", true);
    assert!(object.contains(r#"numbered 0 to 254.","records":[{"record":0,"#));
}

/// Every row of a made-up sheet tells its record, and the marks stand beside
/// what the library lists.
#[test]
fn made_up_sheets() {
    let (mut random, mut answered) = (Random::seeded(5), 0);
    for _ in 0..300 {
        let sheet = made_up::sheet(&mut random).bytes;
        let (text, status) = shown(&sheet, "", false);
        let refused = lodhrussi::read(&sheet).is_err();
        assert_eq!(status == Status::Refused, refused);
        answered += u64::from(!refused);
        let rows = text.lines().skip(2).take(records(&sheet).count());
        for (row, record) in rows.zip(records(&sheet)) {
            let kind = record.kind.expect("a known kind").words;
            let Record { number, start, .. } = record;
            assert!(row.starts_with(&format!("{number:6}  {start:4}  {:02X}", record.byte)));
            assert_eq!(row[24..38].trim_end(), kind);
        }
    }
    assert!(answered > 100, "{answered} sheets");
}

#[test]
fn damaged_sheets_end_at_their_fault() {
    let (mut random, mut faults) = (Random::seeded(6), 0);
    for _ in 0..1000 {
        let sheet = damaged(&mut random);
        let Err(refusal) = lodhrussi::read(&sheet) else {
            continue;
        };
        let (text, status) = shown(&sheet, "", false);
        assert_eq!(status, Status::Refused);
        let names = Names::default();
        let picture = crate::picture::picture("sheet.hex", &sheet, &refusal, &names);
        assert!(text.ends_with(&format!("\n\n{picture}")), "{text}");
        faults += 1;
    }
    assert!(faults > 300, "{faults} faults");
}

#[test]
fn a_standard_output_that_cannot_be_written() {
    let sheet = Sheet {
        file: "sheet.hex".into(),
        bytes: from_hex(S3),
        refusal: None,
        names: Names::default(),
        json: false,
    };
    let mut full: &mut [u8] = &mut [0; 40];
    let error = show(&sheet, &mut full).expect_err("no room");
    assert_eq!(error.kind(), io::ErrorKind::WriteZero);
}
