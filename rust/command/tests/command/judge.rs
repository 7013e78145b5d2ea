//! `lodhrussi judge` for people and for programs.

use crate::folder::Folder;
use crate::json::{objects, Json};
use crate::run::{run, run_on};
use comparison::worked::{JUDGED, S1, TWELVE};

/// What is printed of each of [`JUDGED`].
const OF_JUDGED: [&str; 13] = [
    "can be met\n\
     marks 0 (traits 0, fresh 0, some 0, only 0), links 0; opening 1, survivors 1\n\
     Some finite plant of at least one item keeps all rules of this sheet: \
     the one pairing that breaks no rule by itself can stand.\n",
    "can be met\n\
     marks 2 (traits 1, fresh 0, some 1, only 0), links 1; opening 32, survivors 16\n\
     Some finite plant of at least one item keeps all rules of this sheet: \
     of the 32 pairings that break no rule by themselves 16 can stand together.\n",
    "cannot be met\n\
     marks 2 (traits 1, fresh 0, some 1, only 0), links 1; opening 16, survivors 0\n\
     No finite plant of at least one item keeps all rules of this sheet: \
     of the 16 pairings that break no rule by themselves none can stand together.\n",
    "cannot be met\n\
     marks 3 (traits 1, fresh 0, some 1, only 1), links 1; opening 64, survivors 0\n\
     No finite plant of at least one item keeps all rules of this sheet: \
     of the 64 pairings that break no rule by themselves none can stand together.\n",
    "cannot be met\n\
     marks 1 (traits 0, fresh 0, some 1, only 0), links 1; opening 8, survivors 0\n\
     No finite plant of at least one item keeps all rules of this sheet: \
     of the 8 pairings that break no rule by themselves none can stand together.\n",
    "can be met\n\
     marks 2 (traits 1, fresh 0, some 0, only 1), links 1; opening 48, survivors 16\n\
     Some finite plant of at least one item keeps all rules of this sheet: \
     of the 48 pairings that break no rule by themselves 16 can stand together.\n",
    "can be met\n\
     marks 3 (traits 1, fresh 1, some 1, only 0), links 1; opening 144, survivors 85\n\
     Some finite plant of at least one item keeps all rules of this sheet: \
     of the 144 pairings that break no rule by themselves 85 can stand together.\n",
    "can be met\n\
     marks 1 (traits 1, fresh 0, some 0, only 0), links 0; opening 4, survivors 4\n\
     Some finite plant of at least one item keeps all rules of this sheet: \
     of the 4 pairings that break no rule by themselves 4 can stand together.\n",
    "can be met\n\
     marks 2 (traits 0, fresh 0, some 1, only 1), links 2; opening 32, survivors 4\n\
     Some finite plant of at least one item keeps all rules of this sheet: \
     of the 32 pairings that break no rule by themselves 4 can stand together.\n",
    "cannot be met\n\
     marks 2 (traits 0, fresh 0, some 1, only 1), links 2; opening 16, survivors 0\n\
     No finite plant of at least one item keeps all rules of this sheet: \
     of the 16 pairings that break no rule by themselves none can stand together.\n",
    "can be met\n\
     marks 0 (traits 0, fresh 0, some 0, only 0), links 2; opening 12, survivors 9\n\
     Some finite plant of at least one item keeps all rules of this sheet: \
     of the 12 pairings that break no rule by themselves 9 can stand together.\n",
    "can be met\n\
     marks 2 (traits 1, fresh 0, some 1, only 0), links 1; opening 24, survivors 8\n\
     Some finite plant of at least one item keeps all rules of this sheet: \
     of the 24 pairings that break no rule by themselves 8 can stand together.\n",
    "can be met\n\
     marks 2 (traits 1, fresh 0, some 1, only 0), links 2; opening 112, survivors 48\n\
     Some finite plant of at least one item keeps all rules of this sheet: \
     of the 112 pairings that break no rule by themselves 48 can stand together.\n",
];

/// A sheet that no pairing keeps by itself: everything is nothing.
const NO_OPENING: &str = "01 02 20 00 01";

/// A folder with each of [`JUDGED`].
fn worked() -> Folder {
    let folder = Folder::new();
    for (number, (hex, ..)) in JUDGED.into_iter().enumerate() {
        folder.write(&format!("s{number}.hex"), hex);
    }
    folder
}

#[test]
fn one_sheet() {
    let folder = worked();
    for (number, ((hex, _, _, _, met), printed)) in JUDGED.into_iter().zip(OF_JUDGED).enumerate() {
        let status = i32::from(!met);
        let file = format!("s{number}.hex");
        run(&folder, &["judge", &file]).is(status, printed, "");
        run_on(&folder, &["judge", "-"], hex.as_bytes()).is(status, printed, "");
    }
}

#[test]
fn a_sheet_without_an_opening_pairing() {
    let folder = Folder::with(&[("none.hex", NO_OPENING)]);
    let expected = "cannot be met\n\
        marks 0 (traits 0, fresh 0, some 0, only 0), links 0; opening 0, survivors 0\n\
        No finite plant of at least one item keeps all rules of this sheet: \
        every pairing breaks a rule by itself.\n";
    run(&folder, &["judge", "none.hex"]).is(1, expected, "");
}

/// As many marks and links as there may be take 262,144 words.
#[test]
fn a_sheet_of_twelve() {
    let folder = Folder::with(&[("twelve.hex", TWELVE)]);
    let expected = "can be met\n\
        marks 12 (traits 12, fresh 0, some 0, only 0), links 0; \
        opening 16777216, survivors 16777216\n\
        Some finite plant of at least one item keeps all rules of this sheet: of the 16777216 \
        pairings that break no rule by themselves 16777216 can stand together.\n";
    run(&folder, &["judge", "twelve.hex"]).is(0, expected, "");
    run(&folder, &["judge", "--lines", "twelve.hex"]).is(2, "refused 10 at 0\n", "");
}

/// What `--lines` refuses with 10, and no more.
#[test]
fn the_set_of_the_programs() {
    let folder = Folder::new();
    for names in 1..=12_u8 {
        let name = format!("{names}.hex");
        folder.write(&name, format!("03 {:02X}", names - 1));
        let (traits, size) = (names, 1_u64 << (2 * names));
        let counts = format!(
            "traits {traits} fresh 0 some 0 only 0 links 0\n\
             opening {size} survivors {size}\ncan be met\n"
        );
        let ran = run(&folder, &["judge", "--lines", &name]);
        if names < 10 {
            ran.is(0, &counts, "");
        } else {
            ran.is(2, "refused 10 at 0\n", "");
        }
    }
}

/// What is said of a file that does not exist.
const NONE: &str = "lodhrussi: there is no file none.hex\n";

const S0_LINE: &str = "s0.hex: can be met, 1 of 1 pairing left\n";
const S1_LINE: &str = "s1.hex: can be met, 16 of 32 pairings left\n";
const S2_LINE: &str = "s2.hex: cannot be met, 0 of 16 pairings left\n";

#[test]
fn several_sheets() {
    let folder = worked();
    let both = [S1_LINE, S2_LINE].concat()
        + "2 sheets: 1 can be met, 1 cannot be met, 0 refused; 16 survivors\n";
    run(&folder, &["judge", "s1.hex", "s2.hex"]).is(1, &both, "");
    let zeros = [S0_LINE, S0_LINE].concat()
        + "2 sheets: 2 can be met, 0 cannot be met, 0 refused; 2 survivors\n";
    run(&folder, &["judge", "s0.hex", "s0.hex"]).is(0, &zeros, "");
    let unmet = [S2_LINE, S0_LINE].concat()
        + "2 sheets: 1 can be met, 1 cannot be met, 0 refused; 1 survivor\n";
    run(&folder, &["judge", "s2.hex", "s0.hex"]).is(1, &unmet, "");
}

/// Standard input is one of the files.
#[test]
fn standard_input_among_several() {
    let folder = worked();
    let expected = [
        S2_LINE,
        "standard input: can be met, 16 of 32 pairings left\n",
        S0_LINE,
    ]
    .concat()
        + "3 sheets: 2 can be met, 1 cannot be met, 0 refused; 17 survivors\n";
    let arguments = ["judge", "s2.hex", "-", "s0.hex"];
    run_on(&folder, &arguments, S1.as_bytes()).is(1, &expected, "");
}

/// Lines come in the order given, whatever takes long and however many work.
#[test]
fn the_order_of_lines() {
    let folder = worked();
    folder.write("twelve.hex", TWELVE);
    folder.write("bad.hex", "04 00");
    let bad = "bad.hex: refused 5 at byte 1: The reference at byte 1 names no earlier record. \
        Byte 1 is 00, the only reference of record 0 (04, not of a class, at byte 0): \
        it names record 0, and no record comes before.\n";
    let twelve = "twelve.hex: can be met, 16777216 of 16777216 pairings left\n";
    let files = [
        "twelve.hex",
        "s1.hex",
        "bad.hex",
        "twelve.hex",
        "s2.hex",
        "s0.hex",
    ];
    let expected = [twelve, S1_LINE, bad, twelve, S2_LINE, S0_LINE].concat()
        + "6 sheets: 4 can be met, 1 cannot be met, 1 refused; 33554449 survivors\n";
    for jobs in ["1", "2", "3", "8", "1000"] {
        let arguments = [&["judge", "--jobs", jobs][..], &files].concat();
        run(&folder, &arguments).is(2, &expected, "");
    }
    run(&folder, &[&["judge"][..], &files].concat()).is(2, &expected, "");
}

/// A file that cannot be read is told of in its turn and is no sheet.
#[test]
fn a_missing_file_among_several() {
    let folder = worked();
    let expected = [S1_LINE, S2_LINE].concat()
        + "2 sheets: 1 can be met, 1 cannot be met, 0 refused; 16 survivors\n";
    for jobs in ["1", "2", "8"] {
        let arguments = ["judge", "--jobs", jobs, "s1.hex", "none.hex", "s2.hex"];
        run(&folder, &arguments).is(3, &expected, NONE);
    }
    let none = "0 sheets: 0 can be met, 0 cannot be met, 0 refused; 0 survivors\n";
    run(&folder, &["judge", "none.hex", "none.hex"]).is(3, none, &NONE.repeat(2));
}

const S1_JSON: &str = "{\"file\":\"s1.hex\",\"answer\":\"met\",\"traits\":1,\"fresh\":0,\
    \"some\":1,\"only\":0,\"links\":1,\"marks\":2,\"opening\":32,\"survivors\":16}\n";
const S2_JSON: &str = "{\"file\":\"s2.hex\",\"answer\":\"unmet\",\"traits\":1,\"fresh\":0,\
    \"some\":1,\"only\":0,\"links\":1,\"marks\":2,\"opening\":16,\"survivors\":0}\n";
const BAD_JSON: &str = "{\"file\":\"bad.hex\",\"answer\":\"refused\",\"number\":5,\"place\":1,\
    \"sentence\":\"The reference at byte 1 names no earlier record. Byte 1 is 00, the only \
    reference of record 0 (04, not of a class, at byte 0): it names record 0, and no record \
    comes before.\"}\n";
const NONE_JSON: &str = "{\"file\":\"none.hex\",\"answer\":\"trouble\",\
    \"sentence\":\"there is no file none.hex\"}\n";

#[test]
fn json() {
    let folder = worked();
    folder.write("bad.hex", "04 00");
    let one = [
        (S1_JSON, "s1.hex", 0),
        (S2_JSON, "s2.hex", 1),
        (BAD_JSON, "bad.hex", 2),
    ];
    for (expected, file, status) in one {
        run(&folder, &["judge", "--json", file]).is(status, expected, "");
    }
    run(&folder, &["judge", "--json", "none.hex"]).is(3, NONE_JSON, NONE);
    let totals = "{\"sheets\":3,\"met\":1,\"unmet\":1,\"refused\":1,\"survivors\":16}\n";
    let expected = [S1_JSON, NONE_JSON, BAD_JSON, S2_JSON, totals].concat();
    for jobs in ["1", "2", "8"] {
        let files = ["s1.hex", "none.hex", "bad.hex", "s2.hex"];
        let arguments = [&["judge", "--json", "--jobs", jobs][..], &files].concat();
        run(&folder, &arguments).is(3, &expected, NONE);
    }
    assert_eq!(objects(&expected).len(), 5);
}

/// A file's name is told as it is, whatever JSON has to escape.
#[test]
fn json_of_any_name() {
    let folder = Folder::new();
    for name in [
        "a \"b\" \\ c",
        "tab\there\nand\u{1}\u{7F}\u{2028}",
        "Kühler-❄",
    ] {
        folder.write(name, S1);
        let ran = run(&folder, &["judge", "--json", name]);
        let [object] = &objects(&ran.out)[..] else {
            panic!("one object, and not {}", ran.out);
        };
        assert_eq!(object.of("file"), &Json::from(name));
        assert_eq!(object.of("survivors"), &Json::from(16));
        assert_eq!((ran.status, &ran.err[..]), (Some(0), ""));
    }
}
