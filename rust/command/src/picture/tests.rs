use super::*;
use comparison::damage::{damaged, noise};
use comparison::random::Random;
use comparison::worked::from_hex;
use lodhrussi::Call;

/// A sheet that is refused: hex, number and place in words, the drawing.
const ROWS: &[(&str, &str, &str)] = &[
    (
        "01 10 00 09 01",
        "refused 1 at byte 3",
        "  record 2 at byte 3:  09  no known kind
                       ^^  kind: found 09; wanted 01 to 08, 10 to 14, 20 and 21
",
    ),
    (
        "01 10 00 03 00 07 01",
        "refused 2 at byte 5",
        "  record 3 at byte 5:  07 01 ..  some
                             ^^  found the end of the sheet; wanted a class
",
    ),
    (
        "01 08",
        "refused 2 at byte 1",
        "  record 1 at byte 1:  08 .. ..  only
                          ^^^^^  found the end of the sheet; wanted a link and a class
",
    ),
    (
        "01 20",
        "refused 2 at byte 1",
        "  record 1 at byte 1:  20 .. ..  rule
                          ^^^^^  found the end of the sheet; wanted two classes
",
    ),
    (
        "14",
        "refused 2 at byte 0",
        "  record 0 at byte 0:  14 .. ..  or of links
                          ^^^^^  found the end of the sheet; wanted two links
",
    ),
    (
        "10 00 13 00",
        "refused 2 at byte 2",
        "  record 1 at byte 2:  13 00 ..  and of links
                             ^^  found the end of the sheet; wanted a link
",
    ),
    (
        "12",
        "refused 2 at byte 0",
        "  record 0 at byte 0:  12 ..  not of a link
                          ^^  found the end of the sheet; wanted a link
",
    ),
    (
        "11",
        "refused 2 at byte 0",
        "  record 0 at byte 0:  11 ..  link reversed
                          ^^  found the end of the sheet; wanted the number of a link
",
    ),
    (
        "03",
        "refused 2 at byte 0",
        "  record 0 at byte 0:  03 ..  trait
                          ^^  found the end of the sheet; wanted the number of a trait
",
    ),
    (
        "01 03 0C",
        "refused 4 at byte 1",
        "  record 1 at byte 1:  03 0C  trait
                          ^^  number: found 12; wanted 0 to 11
",
    ),
    (
        "10 04",
        "refused 4 at byte 0",
        "  record 0 at byte 0:  10 04  link as named
                          ^^  number: found 4; wanted 0 to 3
",
    ),
    (
        "11 FF",
        "refused 4 at byte 0",
        "  record 0 at byte 0:  11 FF  link reversed
                          ^^  number: found 255; wanted 0 to 3
",
    ),
    (
        "04 00",
        "refused 5 at byte 1",
        "  record 0 at byte 0:  04 00  not of a class
                          ^^  only reference: found record 0; wanted an earlier class
",
    ),
    (
        "01 02 03 00 05 02 04",
        "refused 5 at byte 6",
        "  record 3 at byte 4:  05 02 04  and of classes
                             ^^  second reference: found record 4; wanted an earlier class
",
    ),
    (
        "01 07 05 00",
        "refused 5 at byte 2",
        "  record 1 at byte 1:  07 05 00  some
                          ^^     first reference: found record 5; wanted an earlier link
",
    ),
    (
        "10 00 04 00",
        "refused 6 at byte 3",
        "  record 1 at byte 2:  04 00  not of a class
                          ^^  only reference: found record 0, a link; wanted a class
",
    ),
    (
        "01 10 00 20 01 00",
        "refused 6 at byte 4",
        "  record 2 at byte 3:  20 01 00  rule
                          ^^     first reference: found record 1, a link; wanted a class
",
    ),
    (
        "10 00 07 00 00",
        "refused 6 at byte 4",
        "  record 1 at byte 2:  07 00 00  some
                             ^^  second reference: found record 0, a link; wanted a class
",
    ),
    (
        "01 12 00",
        "refused 16 at byte 2",
        "  record 1 at byte 1:  12 00  not of a link
                          ^^  only reference: found record 0, a class; wanted a link
",
    ),
    (
        "01 10 00 07 00 01",
        "refused 16 at byte 4",
        "  record 2 at byte 3:  07 00 01  some
                          ^^     first reference: found record 0, a class; wanted a link
",
    ),
    (
        "10 00 01 13 00 01",
        "refused 16 at byte 5",
        "  record 2 at byte 3:  13 00 01  and of links
                             ^^  second reference: found record 1, a class; wanted a link
",
    ),
    (
        "01 20 00 00 12 01",
        "refused 17 at byte 5",
        "  record 2 at byte 4:  12 01  not of a link
                          ^^  only reference: found record 1, a rule; wanted a link
",
    ),
    (
        "01 20 00 00 20 01 00",
        "refused 17 at byte 5",
        "  record 2 at byte 4:  20 01 00  rule
                          ^^     first reference: found record 1, a rule; wanted a class
",
    ),
    (
        "01 20 00 00 10 00 07 02 01",
        "refused 17 at byte 8",
        "  record 3 at byte 6:  07 02 01  some
                             ^^  second reference: found record 1, a rule; wanted a class
",
    ),
    (
        "03 00 04 00 04 01 04 01",
        "refused 7 at byte 7",
        "  record 3 at byte 6:  04 01  not of a class
                          ^^  only reference: found record 1, named before; \
         wanted a class not named before
  record 2 at byte 4:  04 01  not of a class
                          ^^  only reference: names record 1 before
",
    ),
    (
        "10 00 14 00 00 12 01 13 00 01",
        "refused 7 at byte 9",
        "  record 3 at byte 7:  13 00 01  and of links
                             ^^  second reference: found record 1, named before; \
         wanted a link not named before
  record 2 at byte 5:  12 01  not of a link
                          ^^  only reference: names record 1 before
",
    ),
    (
        "01 10 00 13 01 01 07 02 00 07 02 00",
        "refused 7 at byte 10",
        "  record 4 at byte 9:  07 02 00  some
                          ^^     first reference: found record 2, named before; \
         wanted a link not named before
  record 3 at byte 6:  07 02 00  some
                          ^^     first reference: names record 2 before
",
    ),
    (
        "01 10 00 10 01 12 02 14 01 03 08 04 00",
        "refused 8 at byte 10",
        "  record 5 at byte 10:  08 04 00  only
                        ^^^^^^^^  found the link k0 or not k1, \
         which holds on the empty set of links; wanted a link that fails there
",
    ),
    (
        "10 00 12 00 21 01 00",
        "refused 8 at byte 4",
        "  record 2 at byte 4:  21 01 00  link rule
                       ^^^^^^^^  found the first link not k0, \
         which holds on the empty set of links; wanted a link that fails there
",
    ),
    (
        "10 00 21 00",
        "refused 2 at byte 2",
        "  record 1 at byte 2:  21 00 ..  link rule
                             ^^  found the end of the sheet; wanted a link
",
    ),
    (
        "10 00 01 21 00 01",
        "refused 16 at byte 5",
        "  record 2 at byte 3:  21 00 01  link rule
                             ^^  second reference: found record 1, a class; wanted a link
",
    ),
    (
        "10 00 21 00 00 12 01",
        "refused 17 at byte 6",
        "  record 2 at byte 5:  12 01  not of a link
                          ^^  only reference: found record 1, a rule; wanted a link
",
    ),
    ("03 0B 10 00", "refused 9", ""),
];

/// The picture of a sheet that is refused.
fn drawn(sheet: &[u8], names: &Names) -> (Refusal, String) {
    let refusal = lodhrussi::read(sheet).expect_err("a fault");
    let picture = picture("bad.hex", sheet, &refusal, names);
    (refusal, picture)
}

#[test]
fn each_refusal_of_a_sheet() {
    for (hex, told, drawing) in ROWS {
        let sheet = from_hex(hex);
        let (refusal, picture) = drawn(&sheet, &Names::default());
        let sentence = refusal.explain(&sheet);
        assert_eq!(picture, format!("bad.hex: {told}\n{sentence}\n{drawing}"));
    }
}

#[test]
fn a_whole_picture() {
    let (_, picture) = drawn(&from_hex("03 00 04 00 05 01 01"), &Names::default());
    let expected = "bad.hex: refused 7 at byte 6
The reference at byte 6 names a record that was named before and may be named only once. \
Byte 6 is 01, the second reference of record 2 (05, and of classes, at byte 4): \
it names record 1 (04, not of a class, at byte 2), which the reference at byte 5 named before.
  record 2 at byte 4:  05 01 01  and of classes
                             ^^  second reference: found record 1, named before; \
wanted a class not named before
  record 2 at byte 4:  05 01 01  and of classes
                          ^^     first reference: names record 1 before
";
    assert_eq!(picture, expected);
}

#[test]
fn a_256th_record() {
    let sheet = [&[0x01; 255][..], &[0x05]].concat();
    let (_, picture) = drawn(&sheet, &Names::default());
    let expected = "bad.hex: refused 3 at byte 255
The record at byte 255 is one too many: a sheet has at most 255. \
Byte 255 is 05 (and of classes) and begins record 255: records are numbered 0 to 254.
  record 255 at byte 255:  05 .. ..  and of classes
                           ^^        found a 256th record; wanted the end of the sheet
";
    assert_eq!(picture, expected);
}

#[test]
fn names_are_put_into_a_role() {
    let names = Names::parse("k0 = is fed by").expect("a name");
    let (_, picture) = drawn(&from_hex("10 00 12 00 01 07 01 02"), &names);
    let expected = "bad.hex: refused 8 at byte 5
The record at byte 5 is a some, only or link rule whose (first) link holds on the empty set of \
links. Byte 5 is 07 (some) and begins record 3: \
its link, named at byte 6, is record 1 (12, not of a link, at byte 2).
  record 3 at byte 5:  07 01 02  some
                       ^^^^^^^^  found the link not 'is fed by', \
which holds on the empty set of links; wanted a link that fails there
";
    assert_eq!(picture, expected);
}

#[test]
fn a_link_rule_has_no_text() {
    let sheet = from_hex("01 10 00 21 01 01 20 00 00");
    let refusal = lodhrussi::export(&sheet, &mut []).expect_err("a link rule");
    let picture = picture("bad.hex", &sheet, &refusal, &Names::default());
    let expected = "bad.hex: refused 20 at byte 3
The rule at byte 3 is a link rule or has a link with not, and, or; the OWL text of a sheet has neither. \
Byte 3 is 21 (link rule) and begins record 2.
  record 2 at byte 3:  21 01 01  link rule
                       ^^^^^^^^  found a link rule; wanted a rule about classes
";
    assert_eq!(picture, expected);
}

#[test]
fn refusals_of_no_byte() {
    let sheet = from_hex("03 00");
    for (call, number) in [
        (Call::Open, 10),
        (Call::Strike, 11),
        (Call::ListMarks, 12),
        (Call::Judge, 99),
    ] {
        let refusal = Refusal {
            call,
            number,
            place: 0,
        };
        let expected = format!("s.hex: refused {number}\n{}\n", refusal.explain(&sheet));
        let picture = picture("s.hex", &sheet, &refusal, &Names::default());
        assert_eq!(picture, expected);
        assert_eq!(faulty_record(&sheet, &refusal), None);
    }
}

#[test]
fn the_refusal_of_another_sheet_has_no_drawing() {
    let sheets: Vec<_> = ROWS.iter().map(|row| from_hex(row.0)).collect();
    for sheet in &sheets {
        for number in 0..20 {
            for place in [0, 1, 2, 3, 5, 9, 300, u64::MAX] {
                let refusal = Refusal {
                    call: Call::Read,
                    number,
                    place,
                };
                if lodhrussi::read(sheet) == Err(refusal) {
                    continue;
                }
                let picture = picture("s", sheet, &refusal, &Names::default());
                let sentences = format!("s: {}\n{refusal}\n", told(&refusal));
                assert_eq!(picture, sentences);
            }
        }
    }
}

#[test]
fn carets_stand_under_the_byte_at_fault() {
    let (mut random, mut drawn_bytes) = (Random::seeded(7), 0);
    for round in 0..4000 {
        let sheet = match round % 2 {
            0 => damaged(&mut random),
            _ => noise(&mut random),
        };
        let Err(refusal) = lodhrussi::read(&sheet) else {
            continue;
        };
        if !matches!(refusal.number, 1 | 3 | 5..=7 | 16 | 17) {
            continue;
        }
        let picture = picture("s", &sheet, &refusal, &Names::default());
        let lines: Vec<_> = picture.lines().collect();
        let column = lines[3].find("^^").expect("carets");
        let place = usize::try_from(refusal.place).expect("a place");
        let byte = format!("{:02X}", sheet[place]);
        assert_eq!(lines[2][column..column + 2], byte, "{picture}");
        drawn_bytes += 1;
    }
    assert!(drawn_bytes > 1000, "{drawn_bytes} pictures");
}
