//! The exact sentences.

use super::*;
use comparison::drawn::worked::{M341, M342};

fn hex(text: &str) -> Vec<u8> {
    let bytes = text.split_whitespace();
    let bytes = bytes.map(|byte| u8::from_str_radix(byte, 16));
    bytes.collect::<Result<_, _>>().expect("bytes in hex")
}

/// A number that every call of a sheet has, and its sentence at byte 5.
const OF_SHEET: [(u64, &str); 11] = [
    (1, "The record at byte 5 is of no known kind."),
    (
        2,
        "The record at byte 5 is cut off by the end of the sheet.",
    ),
    (
        3,
        "The record at byte 5 is one too many: a sheet has at most 255.",
    ),
    (
        4,
        "The record at byte 5 has a number that is too large: traits go up to 11, links up to 3.",
    ),
    (5, "The reference at byte 5 names no earlier record."),
    (
        6,
        "The reference at byte 5 names a link where a class is wanted.",
    ),
    (
        7,
        "The reference at byte 5 names a record that was named before and may be named only once.",
    ),
    (
        8,
        "The record at byte 5 is a some, only or link rule whose (first) link holds on the empty \
         set of links.",
    ),
    (9, "The sheet has more than 12 marks and links together."),
    (
        16,
        "The reference at byte 5 names a class where a link is wanted.",
    ),
    (
        17,
        "The reference at byte 5 names a rule; rules are never named.",
    ),
];

const SET_TOO_SHORT: &str = "The set is too short: the sheet's pairings take more words.";
const NUMBER_TOO_LARGE: &str =
    "The pairing number is too large: the sheet has no pairing of that number.";
const LIST_TOO_SHORT: &str = "The list is too short: each of the sheet's marks takes three bytes.";

const OUTPUT_TOO_SHORT: &str = "The output is too short for what is to be written.";

/// What the call of a plant has beyond those of its sheet.
const OF_PLANT: [(u64, &str); 5] = [
    (10, SET_TOO_SHORT),
    (
        22,
        "The plant has a record of no known kind, or one that is cut off by the end of the plant.",
    ),
    (
        23,
        "The plant has too many items: a plant has at most 1024.",
    ),
    (
        24,
        "The plant has an item with a bit that is no trait or fresh mark, or a connection that \
         names no earlier item or no known link.",
    ),
    (25, "The plant has no items."),
];

/// What the drawing of a plant has beyond those.
const OF_DRAWING: [(u64, &str); 4] = [
    (10, SET_TOO_SHORT),
    (26, "The sheet cannot be met: it has no survivors."),
    (
        27,
        "The sheet has too many survivors: a plant is drawn of at most 341.",
    ),
    (21, OUTPUT_TOO_SHORT),
];

/// What the call of a text has.
const OF_TEXT: [(u64, &str); 4] = [
    (
        3,
        "The text takes too many records: a sheet has at most 255.",
    ),
    (18, "The word at byte 5 is not known."),
    (
        19,
        "The text at byte 5 goes on with what cannot stand there, or ends inside a form.",
    ),
    (21, OUTPUT_TOO_SHORT),
];

const NO_TEXT: &str =
    "The rule at byte 5 is a link rule or has a link with not, and, or; the OWL text of a sheet has \
     neither.";

/// What a call of a sheet has beyond those.
const OWN: [(Call, &[(u64, &str)]); 9] = [
    (Call::Read, &[]),
    (Call::ListMarks, &[(12, LIST_TOO_SHORT)]),
    (Call::Open, &[(10, SET_TOO_SHORT)]),
    (Call::Strike, &[(10, SET_TOO_SHORT), (11, NUMBER_TOO_LARGE)]),
    (Call::Settle, &[(10, SET_TOO_SHORT)]),
    (Call::Judge, &[(10, SET_TOO_SHORT)]),
    (Call::Export, &[(20, NO_TEXT), (21, OUTPUT_TOO_SHORT)]),
    (Call::CheckPlant, &OF_PLANT),
    (Call::DrawPlant, &OF_DRAWING),
];

/// Asserts the sentence of each number of a call.
#[track_caller]
fn assert_sentences(call: Call, rows: &[(u64, &str)]) {
    for number in 0..40 {
        let refusal = Refusal {
            call,
            number,
            place: 5,
        };
        let row = rows.iter().find(|(of, _)| *of == number);
        let none = format!("The call {call} refused with number {number} at 5.");
        let sentence = row.map_or(none, |(_, sentence)| sentence.to_string());
        assert_eq!(refusal.to_string(), sentence);
    }
}

#[test]
fn each_refusal_of_each_call_has_its_sentence() {
    assert!(OWN.map(|(call, _)| call).into_iter().eq(of_sheets()));
    for (call, own) in OWN {
        assert_sentences(call, &[&OF_SHEET, own].concat());
    }
    assert_sentences(Call::Import, &OF_TEXT);
}

/// The calls that are given a sheet.
fn of_sheets() -> impl Iterator<Item = Call> {
    let calls = Call::ALL.into_iter();
    calls.filter(|call| *call != Call::Import)
}

#[test]
fn a_number_without_a_sentence() {
    let refusal = Refusal {
        call: Call::ListMarks,
        number: 13,
        place: 0,
    };
    let sentence = "The call list marks refused with number 13 at 0.";
    assert_eq!(refusal.to_string(), sentence);
    assert_eq!(refusal.explain(&[1]), sentence);
}

/// A sheet that is refused: hex, number, place, and what it shows.
const SHOWN: &[(&str, u64, u64, &str)] = &[
    (
        "01 10 00 09 01",
        1,
        3,
        "Byte 3 is 09 and begins record 2; the kinds are 01 to 08, 10 to 14, 20 and 21.",
    ),
    (
        "01 10 00 03 00 07 01",
        2,
        5,
        "Byte 5 is 07 (some) and begins record 3: \
         its body takes 2 bytes, and the sheet ends 1 byte too soon.",
    ),
    (
        "01 20",
        2,
        1,
        "Byte 1 is 20 (rule) and begins record 1: \
         its body takes 2 bytes, and the sheet ends 2 bytes too soon.",
    ),
    (
        "11",
        2,
        0,
        "Byte 0 is 11 (link reversed) and begins record 0: \
         its body takes 1 byte, and the sheet ends 1 byte too soon.",
    ),
    (
        "01 03 0C",
        4,
        1,
        "Byte 1 is 03 (trait) and begins record 1: \
         its number, at byte 2, is 12 (0C), and traits go up to 11.",
    ),
    (
        "10 04",
        4,
        0,
        "Byte 0 is 10 (link as named) and begins record 0: \
         its number, at byte 1, is 4 (04), and links go up to 3.",
    ),
    (
        "04 00",
        5,
        1,
        "Byte 1 is 00, the only reference of record 0 (04, not of a class, at byte 0): \
         it names record 0, and no record comes before.",
    ),
    (
        "10 00 12 FF",
        5,
        3,
        "Byte 3 is FF, the only reference of record 1 (12, not of a link, at byte 2): \
         it names record 255, and only record 0 comes before.",
    ),
    (
        "01 02 03 00 05 02 04",
        5,
        6,
        "Byte 6 is 04, the second reference of record 3 (05, and of classes, at byte 4): \
         it names record 4, and only records 0 to 2 come before.",
    ),
    (
        "10 00 07 00 00",
        6,
        4,
        "Byte 4 is 00, the second reference of record 1 (07, some, at byte 2): \
         it names record 0 (10, link as named, at byte 0), and a class is wanted.",
    ),
    (
        "01 10 00 07 00 01",
        16,
        4,
        "Byte 4 is 00, the first reference of record 2 (07, some, at byte 3): \
         it names record 0 (01, everything, at byte 0), and a link is wanted.",
    ),
    (
        "01 20 00 00 12 01",
        17,
        5,
        "Byte 5 is 01, the only reference of record 2 (12, not of a link, at byte 4): \
         it names record 1 (20, rule, at byte 1), and a link is wanted.",
    ),
    (
        "01 20 00 00 10 00 07 02 01",
        17,
        8,
        "Byte 8 is 01, the second reference of record 3 (07, some, at byte 6): \
         it names record 1 (20, rule, at byte 1), and a class is wanted.",
    ),
    (
        "03 00 04 00 05 01 01",
        7,
        6,
        "Byte 6 is 01, the second reference of record 2 (05, and of classes, at byte 4): \
         it names record 1 (04, not of a class, at byte 2), \
         which the reference at byte 5 named before.",
    ),
    (
        "10 00 14 00 00 12 01 13 00 01",
        7,
        9,
        "Byte 9 is 01, the second reference of record 3 (13, and of links, at byte 7): \
         it names record 1 (14, or of links, at byte 2), \
         which the reference at byte 6 named before.",
    ),
    (
        "10 00 12 00 01 07 01 02",
        8,
        5,
        "Byte 5 is 07 (some) and begins record 3: \
         its link, named at byte 6, is record 1 (12, not of a link, at byte 2).",
    ),
    (
        "10 00 12 00 21 01 00",
        8,
        4,
        "Byte 4 is 21 (link rule) and begins record 2: \
         its first link, named at byte 5, is record 1 (12, not of a link, at byte 2).",
    ),
    (
        "10 00 21 00",
        2,
        2,
        "Byte 2 is 21 (link rule) and begins record 1: \
         its body takes 2 bytes, and the sheet ends 1 byte too soon.",
    ),
    (
        "10 00 21 00 01",
        5,
        4,
        "Byte 4 is 01, the second reference of record 1 (21, link rule, at byte 2): \
         it names record 1, and only record 0 comes before.",
    ),
    (
        "10 00 01 21 01 00",
        16,
        4,
        "Byte 4 is 01, the first reference of record 2 (21, link rule, at byte 3): \
         it names record 1 (01, everything, at byte 2), and a link is wanted.",
    ),
    (
        "10 00 21 00 00 12 01",
        17,
        6,
        "Byte 6 is 01, the only reference of record 2 (12, not of a link, at byte 5): \
         it names record 1 (21, link rule, at byte 2), and a link is wanted.",
    ),
    (
        "10 00 13 00 00 21 01 01",
        7,
        7,
        "Byte 7 is 01, the second reference of record 2 (21, link rule, at byte 5): \
         it names record 1 (13, and of links, at byte 2), \
         which the reference at byte 6 named before.",
    ),
    (
        "03 0B 10 00",
        9,
        0,
        "It has 12 traits and 1 link, counted by their largest numbers; \
         the other marks come from the some and only claims of its rules.",
    ),
];

/// Asserts what a refusal says of a sheet.
#[track_caller]
pub(super) fn assert_shown(refusal: Refusal, sheet: &[u8], shown: &str) {
    assert_eq!(refusal.explain(sheet), format!("{refusal} {shown}"));
}

#[test]
fn what_a_sheet_shows() {
    for &(text, number, place, shown) in SHOWN {
        let sheet = hex(text);
        for call in of_sheets() {
            let refusal = Refusal {
                call,
                number,
                place,
            };
            assert_shown(refusal, &sheet, shown);
        }
        let refusal = crate::read(&sheet).unwrap_err();
        assert_eq!((refusal.number, refusal.place), (number, place), "{text}");
    }
}

#[test]
fn a_256th_record() {
    for (next, kind) in [(0x01, " (everything)"), (0x03, " (trait)"), (0xFF, "")] {
        let sheet = [&[0x01; 255][..], &[next]].concat();
        let refusal = crate::read(&sheet).unwrap_err();
        assert_eq!((refusal.number, refusal.place), (3, 255));
        let shown = format!(
            "Byte 255 is {next:02X}{kind} and begins record 255: records are numbered 0 to 254."
        );
        assert_shown(refusal, &sheet, &shown);
    }
}

/// S1: two parts and a role.
const S1: &str = "01 10 00 03 00 07 01 02 20 00 03";

#[test]
fn what_a_set_or_a_list_needs() {
    let sheet = hex(S1);
    let words = "With 2 marks and 1 link a set takes 1 word.";
    let refusals = [
        crate::open(&sheet, &mut []).map(drop),
        crate::settle(&sheet, &mut []).map(drop),
        crate::strike(&sheet, &mut [], 0).map(drop),
        crate::judge(&sheet, &mut []).map(drop),
        crate::check_plant(&sheet, &[], &mut []).map(drop),
        crate::draw_plant(&sheet, &mut [], &mut []).map(drop),
    ];
    for refusal in refusals {
        assert_shown(refusal.unwrap_err(), &sheet, words);
    }
    let numbers = "With 2 marks and 1 link the pairings are numbered 0 to 63.";
    let refusal = crate::strike(&sheet, &mut [0], 64).unwrap_err();
    assert_shown(refusal, &sheet, numbers);
    let bytes = "With 2 marks and 1 link the list takes 6 bytes.";
    let refusal = crate::list_marks(&sheet, &mut [0; 5]).unwrap_err();
    assert_shown(refusal, &sheet, bytes);

    let twelve = hex("03 0B");
    let words = "With 12 marks and 0 links a set takes 262144 words.";
    let refusal = crate::open(&twelve, &mut [0; 9]).unwrap_err();
    assert_shown(refusal, &twelve, words);
}

/// Refusals of other sheets, or of none.
#[test]
fn what_a_sheet_does_not_show() {
    let sheets = SHOWN.iter().map(|&(text, ..)| hex(text));
    let sheets: Vec<_> = sheets.chain([vec![], hex(S1)]).collect();
    for &(text, number, place, _) in SHOWN {
        for sheet in sheets.iter().filter(|sheet| **sheet != hex(text)) {
            let refusal = Refusal {
                call: Call::Judge,
                number,
                place,
            };
            let also = SHOWN.iter().find(|row| hex(row.0) == *sheet);
            if also.is_none_or(|row| (row.1, row.2) != (number, place)) {
                assert_eq!(refusal.explain(sheet), refusal.to_string(), "{text}");
            }
        }
    }
}

/// Role 0 and role 1, and both; some of that is name 0; axioms: everything is
/// name 0, everything is not that.
const BOOLEAN: &str = "01 03 00 10 00 10 01 13 02 03 07 04 01 04 05 20 00 01 20 00 06";

#[test]
fn what_an_axiom_with_a_boolean_role_shows() {
    let sheet = hex(BOOLEAN);
    let refusal = crate::export(&sheet, &mut []).unwrap_err();
    assert_eq!((refusal.number, refusal.place), (20, 18));
    let shown = "Byte 18 is 20 (rule) and begins record 8: it reaches the link named at byte 11, \
                 which is record 4 (13, and of links, at byte 7).";
    assert_shown(refusal, &sheet, shown);
    let other = Refusal {
        place: 15,
        ..refusal
    };
    assert_eq!(other.explain(&sheet), other.to_string());
    assert_eq!(refusal.explain(&hex(S1)), refusal.to_string());
}

#[test]
fn what_a_role_inclusion_shows() {
    for (text, place, record) in [
        ("10 00 21 00 00", 2, 1),
        ("01 10 00 21 01 01 20 00 00", 3, 2),
    ] {
        let sheet = hex(text);
        let refusal = crate::export(&sheet, &mut []).unwrap_err();
        assert_eq!((refusal.number, refusal.place), (20, place));
        let shown = format!("Byte {place} is 21 (link rule) and begins record {record}.");
        assert_shown(refusal, &sheet, &shown);
    }
    // an axiom with a Boolean role comes first
    let sheet = hex(&format!("{BOOLEAN} 21 02 02"));
    let refusal = crate::export(&sheet, &mut []).unwrap_err();
    assert_eq!((refusal.number, refusal.place), (20, 18));
    let shown = refusal.explain(&sheet);
    assert!(
        shown.contains("Byte 18 is 20 (rule) and begins record 8: "),
        "{shown}"
    );
}

/// A sheet, and what it shows of what a plant may have.
const MAY_HAVE: [(&str, &str); 5] = [
    (
        S1,
        "With 2 marks and 1 link an item may have bit 0, and a connection link 0.",
    ),
    // S6: a mark between those that are drawn
    (
        "03 00 10 00 04 00 07 01 02 20 00 03",
        "With 3 marks and 1 link an item may have bits 0 and 2, and a connection link 0.",
    ),
    (
        "03 03 10 03",
        "With 4 marks and 4 links an item may have bits 0, 1, 2 and 3, \
         and a connection links 0, 1, 2 and 3.",
    ),
    // no mark but an only
    (
        "10 00 01 02 08 00 02 20 01 03",
        "With 1 mark and 1 link an item may have no bit, and a connection link 0.",
    ),
    (
        "",
        "With 0 marks and 0 links an item may have no bit, and a connection no link.",
    ),
];

#[test]
fn what_a_plant_may_have() {
    for (text, shown) in MAY_HAVE {
        let (sheet, mut set) = (hex(text), [7; 1024]);
        for plant in [[0x40, 0, 0x80].as_slice(), &[0x41, 0, 0, 0, 0, 0]] {
            let refusal = crate::check_plant(&sheet, plant, &mut set).unwrap_err();
            assert_eq!((refusal.number, refusal.place), (24, 0));
            assert_shown(refusal, &sheet, shown);
        }
        assert_eq!(set, [7; 1024]);
    }
}

#[test]
fn what_a_sheet_does_not_show_of_a_plant() {
    let sheet = hex(S1);
    let many = [0x40, 0, 0].repeat(1025);
    for (plant, number) in [(&[0x42][..], 22), (&[0x40, 0], 22), (&many, 23), (&[], 25)] {
        let refusal = crate::check_plant(&sheet, plant, &mut [7]).unwrap_err();
        assert_eq!((refusal.number, refusal.place), (number, 0));
        assert_eq!(refusal.explain(&sheet), refusal.to_string());
        assert!(!refusal.to_string().contains("byte"), "{refusal}");
    }
    // of another sheet, with a fault
    let refusal = crate::check_plant(&sheet, &[0x40, 2, 0], &mut [7]).unwrap_err();
    assert_eq!(refusal.explain(&[0x09]), refusal.to_string());
}

#[test]
fn what_an_output_needs() {
    let sheet = hex(S1);
    let refusal = crate::export(&sheet, &mut [0; 51]).unwrap_err();
    assert_shown(refusal, &sheet, "The sheet's text takes 52 bytes.");
    let refusal = crate::draw_plant(&sheet, &mut [0], &mut [0; 2_447]).unwrap_err();
    assert_shown(refusal, &sheet, "The sheet's plant takes 2448 bytes.");
    // of other sheets, without survivors or with too many
    for other in ["01 02 20 00 01", "03 04"].map(hex) {
        assert_eq!(refusal.explain(&other), refusal.to_string());
    }
}

#[test]
fn what_a_sheet_shows_of_its_survivors() {
    let five_names = hex("03 04");
    let refusal = crate::draw_plant(&five_names, &mut [0; 16], &mut []).unwrap_err();
    assert_eq!((refusal.number, refusal.place), (27, 0));
    assert_shown(refusal, &five_names, "It has 1024 survivors.");
    assert_shown(refusal, &hex(M342), "It has 342 survivors.");
    // all is nothing
    let unmet = hex("01 02 20 00 01");
    for other in [&hex(S1), &hex(M341), &unmet] {
        assert_eq!(refusal.explain(other), refusal.to_string());
    }
    let refusal = crate::draw_plant(&unmet, &mut [0], &mut []).unwrap_err();
    assert_eq!((refusal.number, refusal.place), (26, 0));
    assert_eq!(refusal.explain(&unmet), refusal.to_string());
}
