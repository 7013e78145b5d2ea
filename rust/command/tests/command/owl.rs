//! OWL text: `lodhrussi import` and `lodhrussi export`, and the other subcommands
//! on texts.

use crate::folder::Folder;
use crate::json::{objects, Json};
use crate::run::{run, run_on};
use comparison::owl::worked::{BOTH_WAYS, EXPORTED, IMPORTED};
use comparison::owl::{damaged, text, with_text};
use comparison::random::Random;
use comparison::suites::{report, times};
use comparison::worked::{from_hex, JUDGED, N8, S1};
use std::fs;
use std::path::Path;

/// S1 and its text.
const OF_S1: &str = "SubClassOf(owl:Thing ObjectSomeValuesFrom(:k0 :t0))\n";

/// What import prints of that text: S1 with operands first.
const S1_IMPORTED: &str = "\
01         # 0  everything
10 00      # 1  k0
03 00      # 2  t0
07 01 02   # 3  some k0 . t0
20 00 03   # 4  every everything is some k0 . t0
";

#[test]
fn a_text_becomes_hex_text() {
    let folder = Folder::with(&[("s1.ofn", OF_S1), ("s1.hex", S1)]);
    run(&folder, &["import", "s1.ofn"]).is(0, S1_IMPORTED, "");
    run_on(&folder, &["import", "-"], OF_S1.as_bytes()).is(0, S1_IMPORTED, "");
    folder.write("again.hex", S1_IMPORTED);
    let [of_text, of_sheet] =
        ["again.hex", "s1.hex"].map(|file| run(&folder, &["judge", "--lines", file]).out);
    assert_eq!(of_text, of_sheet);
    let json = "{\"file\":\"s1.ofn\",\"answer\":\"imported\",\"bytes\":11,\
                \"sheet\":\"01 10 00 03 00 07 01 02 20 00 03\"}\n";
    run(&folder, &["import", "--json", "s1.ofn"]).is(0, json, "");
}

#[test]
fn a_blank_text_is_the_empty_sheet() {
    let folder = Folder::with(&[("blank.ofn", " \n")]);
    run(&folder, &["import", "blank.ofn"]).is(0, "", "");
    run_on(&folder, &["import", "-"], b"").is(0, "", "");
    run(&folder, &["export", "blank.ofn"]).is(0, "", "");
}

/// The trade's words stand in the comments, from a file beside the text or not.
#[test]
fn names_in_the_comments() {
    let names = "t0 = hot water\nk0 = feeds\n";
    let folder = Folder::with(&[("s1.ofn", OF_S1), ("s1.names", names), ("n", "t0 = a\n")]);
    let expected = S1_IMPORTED
        .replace(" k0", " feeds")
        .replace(" t0", " 'hot water'");
    run(&folder, &["import", "s1.ofn"]).is(0, &expected, "");
    let expected = S1_IMPORTED.replace(" t0", " a");
    run(&folder, &["import", "s1.ofn", "--names", "n"]).is(0, &expected, "");
    let missing = "lodhrussi: there is no file none\n";
    run(&folder, &["import", "s1.ofn", "--names=none"]).is(3, "", missing);
}

#[test]
fn a_sheet_becomes_a_text() {
    let folder = Folder::with(&[("s1.hex", S1), ("s1.ofn", &OF_S1.replace(' ', "\n  "))]);
    folder.write("s1", from_hex(S1));
    for file in ["s1.hex", "s1", "s1.ofn"] {
        run(&folder, &["export", file]).is(0, OF_S1, "");
        let json = format!(
            "{{\"file\":\"{file}\",\"answer\":\"exported\",\"text\":\"{}\"}}\n",
            OF_S1.replace('\n', "\\n")
        );
        run(&folder, &["export", "--json", file]).is(0, &json, "");
    }
    run_on(&folder, &["export", "-"], S1.as_bytes()).is(0, OF_S1, "");
}

#[test]
fn an_ontology() {
    let folder = Folder::with(&[("s1.hex", S1)]);
    let expected = format!(
        "Prefix(:=<http://example.org/s1#>)\n\
         Prefix(owl:=<http://www.w3.org/2002/07/owl#>)\n\
         Ontology(<http://example.org/s1>\n\
         Declaration(Class(:t0))\n\
         Declaration(ObjectProperty(:k0))\n\
         {OF_S1})\n"
    );
    let arguments = ["export", "s1.hex", "--ontology", "http://example.org/s1"];
    run(&folder, &arguments).is(0, &expected, "");
    let arguments = [
        "export",
        "--json",
        "--ontology=http://example.org/s1",
        "s1.hex",
    ];
    let ran = run(&folder, &arguments);
    let [object] = &objects(&ran.out)[..] else {
        panic!("one object, and not {}", ran.out);
    };
    assert_eq!(object.of("text"), &Json::from(&expected[..]));
    ran.is(0, &ran.out, "");
    // an ontology is no text of axioms alone
    folder.write("s1.ofn", expected);
    let refused = "refused 18 at 0\n";
    run(&folder, &["judge", "--lines", "s1.ofn"]).is(2, refused, "");
}

/// Texts and sheets of document 02, each by a run of its own.
#[test]
fn fixed_texts_and_sheets() {
    let folder = Folder::new();
    for (text, hex) in BOTH_WAYS {
        run_on(&folder, &["export", "-"], hex.as_bytes()).is(0, text, "");
        assert_eq!(imported(&folder, text.as_bytes()), Ok(from_hex(hex)));
    }
    for (text, outcome) in IMPORTED {
        let expected = outcome.map(from_hex);
        assert_eq!(imported(&folder, text.as_bytes()), expected, "{text:?}");
    }
    for (hex, outcome) in EXPORTED {
        let ran = run_on(&folder, &["export", "-"], hex.as_bytes());
        match outcome {
            Ok(text) => ran.is(0, text, ""),
            Err(refusal) => assert_eq!(told(&ran.out), Some(refusal), "{hex}"),
        }
    }
}

/// Number and place of a refusal that is told for people.
fn told(out: &str) -> Option<(u64, u64)> {
    let line = out.lines().next()?;
    let (_, refused) = line.split_once(": refused ")?;
    let (number, place) = refused.split_once(" at byte ").unwrap_or((refused, "0"));
    Some((number.parse().ok()?, place.parse().ok()?))
}

/// The bytes that the hex text says which import prints of a text, or its refusal.
fn imported(folder: &Folder, text: &[u8]) -> Result<Vec<u8>, (u64, u64)> {
    let ran = run_on(folder, &["import", "-"], text);
    assert_eq!(ran.err, "");
    if ran.status == Some(2) {
        return Err(told(&ran.out).expect("a refusal"));
    }
    assert_eq!(ran.status, Some(0), "{}", ran.out);
    let pairs = ran.out.lines().map(|line| line.split('#').next());
    let pairs: String = pairs.map(Option::unwrap_or_default).collect();
    Ok(from_hex(&pairs))
}

#[test]
fn made_up_texts_and_sheets() {
    let mut random = Random::seeded(95);
    let folder = Folder::new();
    let mut out = vec![0; 1 << 14];
    let (mut texts, mut refused, runs) = (0, 0, times(300));
    for _ in 0..runs {
        let text = if random.one_in(2) {
            text(&mut random)
        } else {
            damaged(&mut random)
        };
        let expected = reference::owl::import(&text, &mut out);
        let expected = expected.map(|length| out[..length].to_vec());
        let expected = expected.map_err(|refusal| (refusal.number, refusal.place));
        match &expected {
            Ok(_) => texts += 1,
            Err(_) => refused += 1,
        }
        assert_eq!(
            imported(&folder, &text),
            expected,
            "{}",
            text.escape_ascii()
        );
        let sheet = with_text(&mut random);
        let length = reference::owl::export(&sheet, &mut out).expect("a text");
        let text = std::str::from_utf8(&out[..length]).expect("a text");
        folder.write("sheet.hex", hex(&sheet));
        run(&folder, &["export", "sheet.hex"]).is(0, text, "");
    }
    assert!(3 * texts >= runs && 3 * refused >= runs);
    report("import and export", &(2 * runs));
}

fn hex(sheet: &[u8]) -> String {
    sheet.iter().map(|byte| format!("{byte:02X}\n")).collect()
}

/// Judging texts is judging their sheets, in one run with many files.
#[test]
fn texts_are_judged_as_sheets() {
    let mut random = Random::seeded(96);
    let folder = Folder::new();
    let (mut of_sheets, mut of_texts) = (vec!["judge".to_string()], vec!["judge".to_string()]);
    let mut texts = 0;
    for number in 0..times(300) {
        let sheet = with_text(&mut random);
        let counts = reference::read(&sheet).expect("a sheet without faults");
        let text = lodhrussi::exported(&sheet).expect("a text");
        let Ok(again) = lodhrussi::imported(text.as_bytes()) else {
            continue;
        };
        if counts.marks() + counts.links > 8 {
            continue;
        }
        folder.write(&format!("sheets/{number}"), hex(&again));
        folder.write(&format!("texts/{number}"), &text);
        of_sheets.push(format!("sheets/{number}"));
        of_texts.push(format!("texts/{number}"));
        texts += 1;
    }
    assert!(texts >= 200, "{texts} texts");
    let by_sheet = run(&folder, &of_sheets);
    let expected = by_sheet.out.replace("sheets/", "texts/");
    let status = by_sheet.status.expect("an exit status");
    run(&folder, &of_texts).is(status, &expected, "");
    report("judge, texts", &texts);
}

#[test]
fn the_other_subcommands_take_texts() {
    let folder = Folder::with(&[("s1.hex", S1), ("s1.ofn", OF_S1)]);
    for subcommand in ["judge", "show"] {
        let expected = run(&folder, &[subcommand, "s1.hex"]).out;
        let expected = expected.replace("s1.hex", "s1.ofn");
        run(&folder, &[subcommand, "s1.ofn"]).is(0, &expected, "");
        run(&folder, &[subcommand, "s1.ofn", "--json"]).is(
            0,
            &run(&folder, &[subcommand, "s1.hex", "--json"])
                .out
                .replace("s1.hex", "s1.ofn"),
            "",
        );
    }
    let struck = run(&folder, &["strike", "s1.hex", "32", "2", "34"]).out;
    run(&folder, &["strike", "s1.ofn", "32", "2", "34"]).is(0, &struck, "");
    let lines = "0 met 16\n1 met 16\nsheets 2 met 2 unmet 0 refused 0 survivors 32\n";
    run(&folder, &["judge", "--lines", "s1.ofn", "s1.hex"]).is(0, lines, "");
}

/// A text that is refused: its number and place, its sentence, and what is drawn.
struct Refused {
    text: &'static str,
    told: &'static str,
    sentence: &'static str,
    drawn: &'static str,
}

const REFUSED: [Refused; 5] = [
    Refused {
        text: "SubClassOf(:t0 :t1)\nSubClassOf(:t0 :t12)\n",
        told: "refused 18 at byte 35",
        sentence:
            "The word at byte 35 is not known. Line 2, column 16: found ':t12'; wanted a class \
                   (:t0 to :t11, owl:Thing, owl:Nothing or a form of classes).",
        drawn: "  line 2:  SubClassOf(:t0 :t12)\n                          ^^^^\n",
    },
    Refused {
        text: "SubClassOf(:t0 :t1 :t2)",
        told: "refused 19 at byte 19",
        sentence:
            "The text at byte 19 goes on with what cannot stand there, or ends inside a form. \
                   Line 1, column 20: found ':t2'; wanted ')'.",
        drawn: "  line 1:  SubClassOf(:t0 :t1 :t2)\n                              ^^^\n",
    },
    Refused {
        text: "SubClassOf(\n  ObjectSomeValuesFrom(:k0 :t0)\n  ",
        told: "refused 19 at byte 46",
        sentence:
            "The text at byte 46 goes on with what cannot stand there, or ends inside a form. \
                   Line 3, column 3: found the end of the text; wanted a class \
                   (:t0 to :t11, owl:Thing, owl:Nothing or a form of classes).",
        drawn: "  line 3:    \n             ^\n",
    },
    Refused {
        text: "Ontology(<http://example.org/coil>\nSubClassOf(:t0 :t1))",
        told: "refused 18 at byte 0",
        sentence: "The word at byte 0 is not known. Line 1, column 1: found 'Ontology'; wanted \
                   SubClassOf.",
        drawn: "  line 1:  Ontology(<http://example.org/coil>\n           ^^^^^^^^\n",
    },
    Refused {
        text: "\u{feff}SubClassOf\t(:t0 :t1)",
        told: "refused 18 at byte 0",
        sentence: "The word at byte 0 is not known. Line 1, column 1: found \
                   '\\u{feff}SubClassOf\\t'; wanted SubClassOf.",
        drawn: "  line 1:  \u{feff}SubClassOf\u{fffd}(:t0 :t1)\n           ^^^^^^^^^^^^\n",
    },
];

#[test]
fn texts_that_are_refused() {
    for Refused {
        text,
        told,
        sentence,
        drawn,
    } in REFUSED
    {
        let folder = Folder::with(&[("bad.ofn", text), ("s0.hex", JUDGED[0].0)]);
        let picture = format!("bad.ofn: {told}\n{sentence}\n{drawn}");
        let questions: [&[&str]; 5] = [
            &["judge", "bad.ofn"],
            &["show", "bad.ofn"],
            &["strike", "bad.ofn", "0"],
            &["import", "bad.ofn"],
            &["export", "bad.ofn"],
        ];
        for question in questions {
            run(&folder, question).is(2, &picture, "");
            let ran = run(&folder, &[question, &["--json"]].concat());
            let [object] = &objects(&ran.out)[..] else {
                panic!("one object, and not {}", ran.out);
            };
            assert_eq!(object.of("answer"), &Json::from("refused"));
            assert_eq!(object.of("sentence"), &Json::from(sentence));
            ran.is(2, &ran.out, "");
        }
        let several = format!(
            "s0.hex: can be met, 1 of 1 pairing left\nbad.ofn: {told}: {sentence}\n\
             2 sheets: 1 can be met, 0 cannot be met, 1 refused; 1 survivor\n"
        );
        run(&folder, &["judge", "s0.hex", "bad.ofn"]).is(2, &several, "");
        let line = told.replace(" byte", "") + "\n";
        run(&folder, &["judge", "--lines", "bad.ofn"]).is(2, &line, "");
        let number = &told[..10];
        let lines = format!("0 {number}\n1 met 1\nsheets 2 met 1 unmet 0 refused 1 survivors 1\n");
        run(&folder, &["judge", "--lines", "bad.ofn", "s0.hex"]).is(2, &lines, "");
    }
}

/// A 256th record has no byte in the text, and its line is told.
#[test]
fn a_text_of_too_many_records() {
    let folder = Folder::with(&[("many.ofn", "SubClassOf(:t0 :t1)\n".repeat(86))]);
    let expected = "many.ofn: refused 3\n\
        The text takes too many records: a sheet has at most 255. \
        The 256th record begins at line 86, column 1: 'SubClassOf'.\n";
    for subcommand in ["judge", "show", "import", "export"] {
        run(&folder, &[subcommand, "many.ofn"]).is(2, expected, "");
    }
    run(&folder, &["judge", "--lines", "many.ofn"]).is(2, "refused 3 at 0\n", "");
}

/// Too many marks are left to reading: import does not mind.
#[test]
fn a_text_of_too_many_marks() {
    let text = "SubClassOf(:t11 ObjectSomeValuesFrom(:k0 :t0))";
    let folder = Folder::with(&[("many.ofn", text)]);
    let hex = "\
03 0B      # 0  t11
10 00      # 1  k0
03 00      # 2  t0
07 01 02   # 3  some k0 . t0
20 00 03   # 4  every t11 is some k0 . t0
";
    run(&folder, &["import", "many.ofn"]).is(0, hex, "");
    let told = "many.ofn: refused 9\n\
        The sheet has more than 12 marks and links together. \
        It has 12 traits and 1 link, counted by their largest numbers; \
        the other marks come from the some and only claims of its rules.\n";
    run(&folder, &["judge", "many.ofn"]).is(2, told, "");
    run(&folder, &["export", "many.ofn"]).is(2, told, "");
}

#[test]
fn rules_that_have_no_text() {
    let hex = "01 10 00 11 01 12 02 13 01 03 07 04 00 04 05 20 00 00 20 06 00";
    let folder = Folder::with(&[("bad.hex", hex), ("bad.names", "k0 = feeds")]);
    let expected = "bad.hex: refused 20 at byte 18\n\
        The rule at byte 18 is a link rule or has a link with not, and, or; the OWL text of a sheet \
        has neither. \
        Byte 18 is 20 (rule) and begins record 8: it reaches the link named at byte 11, \
        which is record 4 (13, and of links, at byte 7).
  record 8 at byte 18:  20 06 00  rule
                        ^^^^^^^^  found the link feeds and not k1 reversed; wanted a link as named or reversed
";
    run(&folder, &["export", "bad.hex"]).is(2, expected, "");
    run(&folder, &["export", "bad.hex", "--ontology=a:b"]).is(2, expected, "");
    let ran = run(&folder, &["export", "--json", "bad.hex"]);
    let [object] = &objects(&ran.out)[..] else {
        panic!("one object, and not {}", ran.out);
    };
    assert_eq!(object.of("number"), &Json::from(20));
    assert_eq!(object.of("place"), &Json::from(18));
    ran.is(2, &ran.out, "");
}

/// A link rule has no text; a rule with such a link that comes first is told.
#[test]
fn link_rules_that_have_no_text() {
    let boolean = "01 10 00 13 01 01 07 02 00 20 00 03 21 01 01";
    let folder = Folder::with(&[("n8.hex", N8), ("boolean.hex", boolean)]);
    let expected = "n8.hex: refused 20 at byte 18\n\
        The rule at byte 18 is a link rule or has a link with not, and, or; the OWL text of a sheet \
        has neither. Byte 18 is 21 (link rule) and begins record 8.
  record 8 at byte 18:  21 01 02  link rule
                        ^^^^^^^^  found a link rule; wanted a rule about classes
";
    run(&folder, &["export", "n8.hex"]).is(2, expected, "");
    run(&folder, &["export", "n8.hex", "--ontology=a:b"]).is(2, expected, "");
    let of_boolean = run(&folder, &["export", "boolean.hex"]);
    assert!(
        of_boolean
            .out
            .contains("record 4 at byte 9:  20 00 03  rule\n"),
        "{}",
        of_boolean.out
    );
    of_boolean.is(2, &of_boolean.out, "");
}

/// The first word decides, after however many blanks; a file of blanks alone is
/// hex text.
#[test]
fn long_texts() {
    let text = ["\n".repeat(100_000), OF_S1.into(), " ".repeat(100_000)].concat();
    let folder = Folder::with(&[("s1.ofn", text), ("blank", " ".repeat(1_000_000))]);
    run(&folder, &["export", "s1.ofn"]).is(0, OF_S1, "");
    run(&folder, &["import", "s1.ofn"]).is(0, S1_IMPORTED, "");
    run(&folder, &["export", "blank"]).is(0, "", "");
    folder.write("long.ofn", [OF_S1, &" ".repeat(1 << 22)].concat());
    let trouble = "lodhrussi: long.ofn cannot be read: longer than 4 MB\n";
    for subcommand in ["import", "export", "judge", "show"] {
        run(&folder, &[subcommand, "long.ofn"]).is(3, "", trouble);
    }
    let none = "lodhrussi: there is no file none.ofn\n";
    run(&folder, &["import", "none.ofn"]).is(3, "", none);
    run(&folder, &["export", "none.ofn"]).is(3, "", none);
}

/// The text among the worked sheets is that of the sheet beside it.
#[test]
fn the_worked_text() {
    let sheets = Path::new(env!("CARGO_MANIFEST_DIR")).join("../../sheets");
    let read = |file: &str| fs::read_to_string(sheets.join(file)).expect(file);
    let folder = Folder::with(&[
        ("coil.hex", read("coil.hex")),
        ("coil.ofn", read("coil.ofn")),
    ]);
    run(&folder, &["export", "coil.hex"]).is(0, &read("coil.ofn"), "");
    let lines = run(&folder, &["judge", "--lines", "coil.hex"]).out;
    run(&folder, &["judge", "--lines", "coil.ofn"]).is(0, &lines, "");
}
