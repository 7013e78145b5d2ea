//! `lodhrussi check`.

use crate::drawn::Drawn;
use crate::folder::Folder;
use crate::json::{objects, Json};
use crate::run::{run, run_on};
use crate::said::said;
use crate::sheets::{file, hex_text, is_hex_text};
use comparison::plants::{individual, Connection, Drawing};
use comparison::random::Random;
use comparison::suites::{report, times};
use comparison::worked::{from_hex, S1, S6};
use comparison::{few_axioms, made_up};
use lodhrussi::{check_plant, words_needed};
use reference::flat::flatten;
use std::fs;
use std::path::Path;

/// A link rule, `k0 within k1`.
const WITHIN: &str = "10 00 10 01 21 00 01";

/// Document 02's plants (N10): sheet, plant, exit status and what is said.
const WORKED: [(&str, &str, i32, &str); 5] = [
    (
        S1,
        "40 01 00 41 00 00 00 00 00",
        0,
        "keeps the sheet\n\
         items 1, connections 1; pairings 1\n\
         This plant of 1 item and 1 connection keeps every rule of the sheet; it has 1 different \
         pairing.\n",
    ),
    (
        S1,
        "40 01 00",
        1,
        "breaks a rule\n\
         items 1, connections 0; pairings 1\n\
         Item 0 is the first whose marks break a rule.\n\
         \x20 traits of item 0: t0\n\
         The rules as written that item 0 breaks (worked out by this command, not by the proved \
         library):\n\
         \x20 record 4: every everything is some k0 . t0\n",
    ),
    (
        WITHIN,
        "40 00 00 40 00 00 41 00 00 01 00 00",
        1,
        "breaks a link rule\n\
         items 2, connections 1; pairings 3\n\
         Each item keeps the rules; the pair from item 0 to item 1 is the first that breaks a link \
         rule.\n\
         \x20 traits of item 0: none\n\
         \x20 links from item 0 to item 1: k0\n\
         \x20 traits of item 1: none\n\
         The link rules as written that it breaks (worked out by this command, not by the proved \
         library):\n\
         \x20 record 2: k0 within k1\n",
    ),
    (
        S6,
        "40 01 00 40 04 00 41 00 00 01 00 00",
        0,
        "keeps the sheet\n\
         items 2, connections 1; pairings 4\n\
         This plant of 2 items and 1 connection keeps every rule of the sheet; it has 4 different \
         pairings.\n",
    ),
    (
        S6,
        "40 01 00 40 00 00 41 00 00 01 00 00",
        1,
        "breaks a rule\n\
         items 2, connections 1; pairings 4\n\
         Item 0 is the first whose marks break a rule.\n\
         \x20 traits of item 0: t0\n\
         Item 0 breaks no rule as written; the fresh marks drawn do not agree with their fillers \
         (worked out by this command, not by the proved library):\n\
         \x20 mark 2, not t0: not drawn of item 1, of which it holds\n",
    ),
];

/// A plant in hex.
const HOLDS: &str = WORKED[0].1;

#[test]
fn the_worked_plants() {
    for (sheet, plant, status, text) in WORKED {
        let folder = Folder::with(&[("sheet.hex", sheet), ("plant", plant)]);
        folder.write("sheet", from_hex(sheet));
        folder.write("raw", from_hex(plant));
        for arguments in [
            ["check", "sheet.hex", "plant"],
            ["check", "sheet.hex", "raw"],
            ["check", "sheet", "plant"],
        ] {
            run(&folder, &arguments).is(status, text, "");
        }
        let of_input = ["check", "sheet", "-"];
        run_on(&folder, &of_input, plant.as_bytes()).is(status, text, "");
        run_on(&folder, &of_input, &from_hex(plant)).is(status, text, "");
        let of_input = ["check", "-", "plant"];
        run_on(&folder, &of_input, sheet.as_bytes()).is(status, text, "");
        run_on(&folder, &of_input, &from_hex(sheet)).is(status, text, "");
    }
}

/// Their pairings, as the library that the command asks writes them.
#[test]
fn the_pairings_of_the_worked_plants() {
    let sets: [&[u64]; 5] = [
        &[63],
        &[17],
        &[0, 1, 2],
        &[99, 108, 132, 147],
        &[0, 17, 33, 40],
    ];
    for ((sheet, plant, ..), numbers) in WORKED.into_iter().zip(sets) {
        let (sheet, plant) = (from_hex(sheet), from_hex(plant));
        let counts = lodhrussi::read(&sheet).expect("a sheet without faults");
        let mut set = vec![u64::MAX; words_needed(counts)];
        check_plant(&sheet, &plant, &mut set).expect("a plant without faults");
        let has = |number: &u64| set[(number / 64) as usize] >> (number % 64) & 1 == 1;
        let found: Vec<_> = (0..64 * set.len() as u64).filter(has).collect();
        assert_eq!(found, numbers);
    }
}

#[test]
fn json() {
    let expected = [
        r#""answer":"keeps","plant":"p","items":1,"connections":1,"pairings":1}"#,
        concat!(
            r#""answer":"breaks","plant":"p","items":1,"connections":0,"pairings":1,"item":0,"#,
            r#""traits":[{"trait":0,"text":"t0"}],"worked_out_by_the_command":{"rules":"#,
            r#"[{"record":4,"text":"every everything is some k0 . t0"}],"fresh":[]}}"#,
        ),
        concat!(
            r#""answer":"breaks","plant":"p","items":2,"connections":1,"pairings":3,"from":0,"#,
            r#""to":1,"from_traits":[],"links":[{"link":0,"reversed":false,"text":"k0"}],"#,
            r#""to_traits":[],"worked_out_by_the_command":{"link_rules":"#,
            r#"[{"record":2,"text":"k0 within k1"}]}}"#,
        ),
        r#""answer":"keeps","plant":"p","items":2,"connections":1,"pairings":4}"#,
        concat!(
            r#""answer":"breaks","plant":"p","items":2,"connections":1,"pairings":4,"item":0,"#,
            r#""traits":[{"trait":0,"text":"t0"}],"worked_out_by_the_command":{"rules":[],"#,
            r#""fresh":[{"mark":2,"text":"not t0","drawn":false,"items":[1]}]}}"#,
        ),
    ];
    for ((sheet, plant, status, _), fields) in WORKED.into_iter().zip(expected) {
        let folder = Folder::with(&[("s.hex", sheet), ("p", plant)]);
        let object = format!("{{\"file\":\"s.hex\",{fields}\n");
        run(&folder, &["check", "--json", "s.hex", "p"]).is(status, &object, "");
        assert_eq!(objects(&object).len(), 1);
    }
}

/// The names beside the sheet, and others.
#[test]
fn names() {
    let plant = "40 00 00 40 01 00 41 00 00 01 00 00";
    let sheet = "03 00 10 00 10 01 21 01 02";
    let folder = Folder::with(&[("s.hex", sheet), ("p", plant), ("p.names", "t0 = x")]);
    let said = |coil: &str, feeds: &str, supplies: &str| {
        format!(
            "breaks a link rule\nitems 2, connections 1; pairings 4\n\
             Each item keeps the rules; the pair from item 0 to item 1 is the first that breaks a \
             link rule.\n\
             \x20 traits of item 0: none\n\
             \x20 links from item 0 to item 1: {feeds}\n\
             \x20 traits of item 1: {coil}\n\
             The link rules as written that it breaks (worked out by this command, not by the \
             proved library):\n\
             \x20 record 3: {feeds} within {supplies}\n"
        )
    };
    run(&folder, &["check", "s.hex", "p"]).is(1, &said("t0", "k0", "k1"), "");
    folder.write("s.names", "t0 = reheat coil\nk0 = feeds\n");
    run(&folder, &["check", "s.hex", "p"]).is(1, &said("'reheat coil'", "feeds", "k1"), "");
    let given = "t0 = coil\nk1 = supplies\n";
    let arguments = ["check", "--names", "-", "s.hex", "p"];
    run_on(&folder, &arguments, given.as_bytes()).is(1, &said("coil", "k0", "supplies"), "");
    let missing = "lodhrussi: there is no file none\n";
    run(&folder, &["check", "s.hex", "p", "--names=none"]).is(3, "", missing);
}

/// A sheet as OWL text.
#[test]
fn a_sheet_as_a_text() {
    let text = "SubClassOf(owl:Thing ObjectSomeValuesFrom(:k0 :t0))\n";
    let folder = Folder::with(&[("s1.ofn", text), ("plant", HOLDS)]);
    run(&folder, &["check", "s1.ofn", "plant"]).is(0, WORKED[0].3, "");
    folder.write("bad.ofn", "SubClassOf(:t0 :t12)\n");
    let refused = "sheet bad.ofn: refused 18 at byte 15\n\
        The word at byte 15 is not known. Line 1, column 16: found ':t12'; wanted a class (:t0 to \
        :t11, owl:Thing, owl:Nothing or a form of classes).\n\
        \x20 line 1:  SubClassOf(:t0 :t12)\n\
        \x20                         ^^^^\n";
    run(&folder, &["check", "bad.ofn", "plant"]).is(2, refused, "");
}

/// Repeated connections count once; from an item to itself they are one, and both
/// ways.
#[test]
fn connections_that_repeat() {
    let there = "41 00 00 01 00 00 ";
    let plant = format!(
        "40 01 00 40 04 00 {}{}",
        there.repeat(3),
        "41 01 00 00 00 00"
    );
    let folder = Folder::with(&[("s6.hex", S6), ("plant", &plant)]);
    let kept = "keeps the sheet\nitems 2, connections 2; pairings 4\n\
                This plant of 2 items and 2 connections keeps every rule of the sheet; it has 4 \
                different pairings.\n";
    run(&folder, &["check", "s6.hex", "plant"]).is(0, kept, "");
    let folder = Folder::with(&[("s.hex", WITHIN), ("p", "40 00 00 41 00 00 00 00 00")]);
    let broken = "breaks a link rule\nitems 1, connections 1; pairings 1\n\
        Each item keeps the rules; the pair from item 0 to item 0 is the first that breaks a link \
        rule.\n\
        \x20 traits of item 0: none\n\
        \x20 links from item 0 to item 0: k0, k0 reversed\n\
        The link rules as written that it breaks (worked out by this command, not by the proved \
        library):\n\
        \x20 record 2: k0 within k1\n";
    run(&folder, &["check", "s.hex", "p"]).is(1, broken, "");
}

/// All rules that an item breaks are told, in the sheet's order.
#[test]
fn several_rules() {
    let sheet = "03 00 03 01 10 00 02 01 20 00 03 07 02 01 20 04 06 20 00 01 20 01 01";
    let folder = Folder::with(&[("s.hex", sheet), ("p", "40 01 00")]);
    let said = "breaks a rule\nitems 1, connections 0; pairings 1\n\
        Item 0 is the first whose marks break a rule.\n\
        \x20 traits of item 0: t0\n\
        The rules as written that item 0 breaks (worked out by this command, not by the proved \
        library):\n\
        \x20 record 5: every t0 is nothing\n\
        \x20 record 7: every everything is some k0 . t1\n\
        \x20 record 8: every t0 is t1\n";
    run(&folder, &["check", "s.hex", "p"]).is(1, said, "");
}

/// Everything is only k0 . not t0, whose filler has the fresh mark 2: not drawn of
/// the items 1 and 3, to which k0 joins item 0; or drawn of one with t0.
#[test]
fn fresh_marks_drawn_wrongly() {
    let sheet = "03 00 10 00 01 04 00 08 01 03 20 02 04";
    let joined = "40 00 00 40 00 00 40 04 00 40 00 00 \
                  41 00 00 01 00 00 41 00 00 02 00 00 41 00 00 03 00 00";
    for (plant, counts, traits, drawn) in [
        (
            joined,
            "items 4, connections 3; pairings 9",
            "none",
            "not drawn of items 1, 3, of which it holds",
        ),
        (
            "40 05 00",
            "items 1, connections 0; pairings 1",
            "t0",
            "drawn of item 0, of which it does not hold",
        ),
    ] {
        let folder = Folder::with(&[("s.hex", sheet), ("p", plant)]);
        let said = format!(
            "breaks a rule\n{counts}\n\
             Item 0 is the first whose marks break a rule.\n\
             \x20 traits of item 0: {traits}\n\
             Item 0 breaks no rule as written; the fresh marks drawn do not agree with their \
             fillers (worked out by this command, not by the proved library):\n\
             \x20 mark 2, not t0: {drawn}\n"
        );
        run(&folder, &["check", "s.hex", "p"]).is(1, &said, "");
    }
}

/// Hex text and raw bytes; what is neither is raw, with a note.
#[test]
fn plants_as_files() {
    let folder = Folder::with(&[("s1.hex", S1)]);
    let layouts = [
        "400100410000000000",
        "# a plant\n40 01 00 # item 0\r\n\t41 00 00\x0B00 00\x0C00\n",
        "\u{FEFF}40 01 00 41 0000 0000 00#",
    ];
    for layout in layouts {
        folder.write("plant", layout);
        run(&folder, &["check", "s1.hex", "plant"]).is(0, WORKED[0].3, "");
    }
    let note = |name: &str, what: &str| {
        format!(
            "lodhrussi: {name}: line 1, column 4: 'x' is no hex digit; \
             taking {what} as raw bytes\n"
        )
    };
    for (argument, name, what) in [
        ("plant", "plant", "the file"),
        ("-", "standard input", "it"),
    ] {
        folder.write("plant", "40 x");
        let ran = run_on(&folder, &["check", "s1.hex", argument], b"40 x");
        let first = format!("plant {name}: refused 22\n");
        assert!(ran.out.starts_with(&first), "{}", ran.out);
        ran.is(2, &ran.out, &note(name, what));
    }
    // the sheet's note stands as ever, and a raw plant has none
    folder.write("text", "01 x");
    folder.write("plant", from_hex(HOLDS));
    let ran = run(&folder, &["check", "text", "plant"]);
    ran.is(2, &ran.out, &note("text", "the file"));
}

/// Raw plants without a fault are taken as they are, also those without a control
/// character, and raw plants at fault that are no text.
#[test]
fn raw_plants() {
    // twelve traits: an item with bits of each sort of byte
    let folder = Folder::with(&[("s.hex", "03 0B")]);
    for high in 0..16 {
        for low in [0x00, 0x0A, 0x20, 0x23, 0x41, 0xFF] {
            let raw = [0x40, low, high];
            assert!(!is_hex_text(&raw));
            let hex = raw.map(|byte| format!("{byte:02x}")).join(" ");
            let arguments = ["check", "--json", "s.hex", "-"];
            let of_raw = run_on(&folder, &arguments, &raw);
            run_on(&folder, &arguments, hex.as_bytes()).is(0, &of_raw.out, "");
            of_raw.is(0, &of_raw.out, "");
        }
    }
    // 41 is a hex digit's byte, and what begins with it is refused as text and raw
    for (bytes, number) in [
        (&b"A"[..], 22),
        (b"A0", 22),
        (b"AAAAAA", 22),
        (b"A\0\0\0\0\0", 24),
    ] {
        let ran = run_on(&folder, &["check", "s.hex", "-"], bytes);
        let first = format!("plant standard input: refused {number}\n");
        assert!(ran.out.starts_with(&first), "{}", ran.out);
        assert_eq!(ran.status, Some(2));
    }
}

/// A plant that is refused.
struct Refused {
    sheet: &'static str,
    plant: &'static str,
    number: u64,
    /// The lines that draw it.
    drawn: &'static [&'static str],
}

const REFUSED: &[Refused] = &[
    Refused {
        sheet: S1,
        plant: "40 01 00 42 00",
        number: 22,
        drawn: &[
            "  record 1 at byte 3:  42  no known kind",
            "                       ^^  kind: found 42; wanted 40 or 41",
        ],
    },
    Refused {
        sheet: S1,
        plant: "40 01",
        number: 22,
        drawn: &[
            "  record 0 at byte 0:  40 01 ..  item",
            "                             ^^  found the end of the plant; wanted two bytes of \
             traits and fresh marks",
        ],
    },
    Refused {
        sheet: S1,
        plant: "40 01 00 41 00 00 05 00",
        number: 22,
        drawn: &[
            "  record 1 at byte 3:  41 00 00 05 00 ..  connection",
            "                                      ^^  found the end of the plant; wanted two \
             items, each in two bytes, and a link",
        ],
    },
    Refused {
        sheet: S1,
        plant: "40 02 00 42",
        number: 24,
        drawn: &[
            "  record 0 at byte 0:  40 02 00  item",
            "                          ^^     found mark 1, some k0 . t0, which is worked out from \
             the connections; wanted traits and fresh marks",
        ],
    },
    Refused {
        sheet: S6,
        plant: "40 05 00 40 05 01",
        number: 24,
        drawn: &[
            "  record 1 at byte 3:  40 05 01  item",
            "                             ^^  found bit 8, and there is no mark 8; wanted traits \
             and fresh marks",
        ],
    },
    Refused {
        sheet: S1,
        plant: "41 00 00 00 00 00",
        number: 24,
        drawn: &[
            "  record 0 at byte 0:  41 00 00 00 00 00  connection",
            "                          ^^^^^           found item 0; no item comes before",
        ],
    },
    Refused {
        sheet: S1,
        plant: "40 00 00 40 00 00 41 01 00 02 01 09",
        number: 24,
        drawn: &[
            "  record 2 at byte 6:  41 01 00 02 01 09  connection",
            "                                ^^^^^     found item 258; wanted 0 to 1",
        ],
    },
    Refused {
        sheet: S1,
        plant: "40 00 00 41 00 00 00 00 01",
        number: 24,
        drawn: &[
            "  record 1 at byte 3:  41 00 00 00 00 01  connection",
            "                                      ^^  found link 1; wanted 0",
        ],
    },
    Refused {
        sheet: "03 00",
        plant: "40 00 00 41 00 00 00 00 00",
        number: 24,
        drawn: &[
            "  record 1 at byte 3:  41 00 00 00 00 00  connection",
            "                                      ^^  found link 0; the sheet has no link",
        ],
    },
    Refused {
        sheet: S1,
        plant: "# nothing",
        number: 25,
        drawn: &[],
    },
];

/// What the library says of a plant that is refused.
fn sentence(sheet: &[u8], plant: &[u8], number: u64) -> String {
    let counts = lodhrussi::read(sheet).expect("a sheet without faults");
    let mut set = vec![0; words_needed(counts)];
    let refusal = check_plant(sheet, plant, &mut set).expect_err("a plant at fault");
    assert_eq!((refusal.number, refusal.place), (number, 0));
    refusal.explain(sheet)
}

#[test]
fn refused_plants() {
    for refused in REFUSED {
        let Refused {
            sheet,
            plant,
            number,
            drawn,
        } = *refused;
        let folder = Folder::with(&[("s.hex", sheet), ("p", plant)]);
        let bytes = plant.split('#').next().map(from_hex).unwrap_or_default();
        let sentence = sentence(&from_hex(sheet), &bytes, number);
        let mut expected = format!("plant p: refused {number}\n{sentence}\n");
        for line in drawn {
            expected += &format!("{line}\n");
        }
        run(&folder, &["check", "s.hex", "p"]).is(2, &expected, "");
        let ran = run(&folder, &["check", "s.hex", "--json", "p"]);
        let fields = [
            ("file", "s.hex".into()),
            ("answer", "refused".into()),
            ("number", number.into()),
            ("place", 0.into()),
            ("sentence", Json::from(&sentence[..])),
            ("plant", "p".into()),
            ("refused", "plant".into()),
        ];
        let object = Json::Object(fields.map(|(key, value)| (key.into(), value)).into());
        assert_eq!(objects(&ran.out), [object]);
        ran.is(2, &ran.out, "");
    }
}

/// A sheet is refused before its plant.
#[test]
fn refused_sheets() {
    let folder = Folder::with(&[
        ("bad.hex", "04 00"),
        ("p", "42"),
        ("large.hex", "03 0B 10 00"),
    ]);
    let refused = "sheet bad.hex: refused 5 at byte 1\n\
        The reference at byte 1 names no earlier record. Byte 1 is 00, the only reference of \
        record 0 (04, not of a class, at byte 0): it names record 0, and no record comes before.\n\
        \x20 record 0 at byte 0:  04 00  not of a class\n\
        \x20                         ^^  only reference: found record 0; wanted an earlier class\n";
    run(&folder, &["check", "bad.hex", "p"]).is(2, refused, "");
    let ran = run(&folder, &["check", "--json", "bad.hex", "p"]);
    let [object] = &objects(&ran.out)[..] else {
        panic!("one object, and not {}", ran.out);
    };
    assert_eq!(object.of("number"), &Json::from(5));
    assert_eq!(object.of("plant"), &Json::from("p"));
    assert_eq!(object.of("refused"), &Json::from("sheet"));
    let ran = run(&folder, &["check", "large.hex", "p"]);
    assert!(
        ran.out.starts_with("sheet large.hex: refused 9\n"),
        "{}",
        ran.out
    );
    ran.is(2, &ran.out, "");
}

/// 1,024 items, each joined to the next by k0, and the last to the first: each
/// pairing is of two items that are not joined, of one and the next, or of one and
/// the one before.
#[test]
fn the_most_items() {
    let to_next = |from| Connection {
        from,
        to: (from + 1) % 1024,
        role: 0,
    };
    let ring = Drawing {
        individuals: vec![1; 1024],
        connections: (0..1024).map(to_next).collect(),
    };
    let mut plant = ring.records().concat();
    let folder = Folder::with(&[("s1.hex", S1)]);
    folder.write("p", &plant);
    let kept = "keeps the sheet\nitems 1024, connections 1024; pairings 3\n\
                This plant of 1024 items and 1024 connections keeps every rule of the sheet; it has \
                3 different pairings.\n";
    run(&folder, &["check", "s1.hex", "p"]).is(0, kept, "");
    plant.extend(individual(2));
    let sentence = sentence(&from_hex(S1), &plant, 23);
    folder.write("p", &plant);
    let refused = format!(
        "plant p: refused 23\n{sentence}\n\
         \x20 record 2048 at byte 9216:  40 02 00  item\n\
         \x20                            ^^        found a 1,025th item; wanted at most 1,024\n"
    );
    run(&folder, &["check", "s1.hex", "p"]).is(2, &refused, "");
}

/// A plant takes 32 MB at most, which no plant does that says each connection
/// once.
#[test]
fn long_plants() {
    const MOST: usize = 1 << 25;
    let folder = Folder::with(&[("s1.hex", S1)]);
    let mut plant = from_hex(HOLDS);
    plant.resize(MOST - MOST % 6 - 3, 0);
    let (front, rest) = plant.split_at_mut(9);
    for connection in rest.chunks_exact_mut(6) {
        connection.copy_from_slice(&front[3..]);
    }
    assert!((MOST - 9..=MOST).contains(&plant.len()));
    folder.write("p", &plant);
    run(&folder, &["check", "s1.hex", "p"]).is(0, WORKED[0].3, "");
    plant.resize(MOST + 1, 0);
    folder.write("p", &plant);
    let long = "lodhrussi: p cannot be read: longer than 32 MB\n";
    run(&folder, &["check", "s1.hex", "p"]).is(3, "", long);
    let endless = "lodhrussi: /dev/zero cannot be read: longer than 32 MB\n";
    run(&folder, &["check", "s1.hex", "/dev/zero"]).is(3, "", endless);
    const { assert!(1024 * 3 + 4 * 1024 * 1024 * 6 <= MOST) };
}

/// What the plants in sheets/ say of themselves.
#[test]
fn the_plants_in_the_repository() {
    let root = Path::new(env!("CARGO_MANIFEST_DIR")).join("../..");
    let sheets = fs::read_dir(root.join("sheets")).expect("a folder");
    let names = sheets.map(|entry| entry.expect("an entry").file_name());
    let names = names.map(|name| name.into_string().expect("a name in letters"));
    let mut plants: Vec<_> = names.filter(|name| name.ends_with(".plant")).collect();
    plants.sort();
    assert_eq!(plants, ["coil.plant", "coil_broken.plant"]);
    for (plant, status) in plants.iter().zip([0, 1]) {
        let text = fs::read_to_string(root.join("sheets").join(plant)).expect("a text");
        let says = text.lines().filter_map(|line| line.strip_prefix("#   "));
        let says: String = says.map(|line| format!("{line}\n")).collect();
        let folder = Folder::with(&[("p", &text)]);
        let sheet = root.join("sheets/coil.hex");
        let sheet = sheet.to_str().expect("a path in letters");
        run(&folder, &["check", sheet, "p"]).is(status, &says, "");
    }
}

/// A sheet with a fresh name.
pub fn with_fresh_name(size: usize, random: &mut Random) -> Vec<u8> {
    loop {
        let sheet = few_axioms::sheet(size, random);
        if reference::read(&sheet).is_ok_and(|counts| counts.fresh > 0) {
            return sheet;
        }
    }
}

/// Plants drawn for made-up sheets, against the definitions applied as they stand.
#[test]
fn made_up_plants() {
    let mut random = Random::seeded(84);
    let folder = Folder::new();
    let mut found = [0; 4];
    for turn in 0..times(900) {
        let size = 2 + turn as usize % 6;
        let sheet = match turn % 3 {
            0 => made_up::small_sheet(size, &mut random),
            1 => few_axioms::sheet(size, &mut random),
            _ => with_fresh_name(size + 2, &mut random),
        };
        let kb = flatten(&sheet).expect("a sheet without faults");
        let drawn = Drawn::any(&kb, &mut random);
        let bytes = drawn.plant.file(&mut random);
        folder.write("sheet", file(&sheet, &mut random));
        let plant = match random.one_in(2) {
            true => hex_text(&bytes, &mut random),
            false => bytes,
        };
        folder.write("plant", plant);
        let expected = said(&sheet, &drawn);
        run(&folder, &["check", "sheet", "plant"]).is(expected.status, &expected.text, "");
        found[expected.found as usize] += 1;
    }
    let tally = format!(
        "{} plants; kept, by item, by fresh mark, by pair: {found:?}",
        times(900)
    );
    report("check, made-up plants", &tally);
    assert!(found.iter().all(|count| *count >= 40), "{tally}");
}
