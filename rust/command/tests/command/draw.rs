//! `lodhrussi draw`, without pictures.

use crate::check::with_fresh_name;
use crate::folder::Folder;
use crate::json::{objects, Json};
use crate::layers::Layers;
use crate::run::{run, run_on};
use crate::sheets::file;
use crate::words::count;
use comparison::random::Random;
use comparison::suites::{report, times};
use comparison::worked::{from_hex, JUDGED, S1};
use comparison::{few_axioms, made_up};
use std::collections::BTreeSet;
use std::fs;
use std::path::Path;
use std::slice;

/// The options for each form.
const FORMS: [&[&str]; 5] = [
    &[],
    &["--records"],
    &["--dot"],
    &["--json"],
    &["--svg", "o"],
];

/// Everything is joined by k0 to something, and by k0 reversed only to what is t0
/// and t0, which gets a fresh mark; k0 reversed is within k0.
pub const BOTH_WAYS: &str =
    "03 00 10 00 11 00 01 05 00 00 07 01 03 20 03 05 08 02 04 20 03 07 21 02 01";

/// Its two survivors, with k0 neither way and both ways, in three layers.
pub const BOTH_WAYS_SAID: &str =
    "This plant of 6 items and 12 connections keeps every rule of the sheet; it has three layers \
     of 2 items, one for each survivor.\n";

const BOTH_WAYS_TEXT: &str = "
item  layer  survivor   pairing  traits  fresh marks
   0      0         0       975  t0      t0 and t0
   1      0         1      1023  t0      t0 and t0
   2      1         0       975  t0      t0 and t0
   3      1         1      1023  t0      t0 and t0
   4      2         0       975  t0      t0 and t0
   5      2         1      1023  t0      t0 and t0

from  link  to
   0  k0    3
   1  k0    3, 4, 5
   2  k0    5
   3  k0    0, 1, 5
   4  k0    1
   5  k0    1, 2, 3
";

const BOTH_WAYS_RECORDS: &str = "\
40 09 00            # 0  item 0: t0; fresh marks t0 and t0
40 09 00            # 1  item 1: t0; fresh marks t0 and t0
40 09 00            # 2  item 2: t0; fresh marks t0 and t0
40 09 00            # 3  item 3: t0; fresh marks t0 and t0
40 09 00            # 4  item 4: t0; fresh marks t0 and t0
40 09 00            # 5  item 5: t0; fresh marks t0 and t0
41 00 00 03 00 00   # 6  item 0 to item 3: k0
41 01 00 03 00 00   # 7  item 1 to item 3: k0
41 01 00 04 00 00   # 8  item 1 to item 4: k0
41 01 00 05 00 00   # 9  item 1 to item 5: k0
41 02 00 05 00 00   # 10  item 2 to item 5: k0
41 03 00 00 00 00   # 11  item 3 to item 0: k0
41 03 00 01 00 00   # 12  item 3 to item 1: k0
41 03 00 05 00 00   # 13  item 3 to item 5: k0
41 04 00 01 00 00   # 14  item 4 to item 1: k0
41 05 00 01 00 00   # 15  item 5 to item 1: k0
41 05 00 02 00 00   # 16  item 5 to item 2: k0
41 05 00 03 00 00   # 17  item 5 to item 3: k0
";

pub const BOTH_WAYS_DOT: &str = r##"digraph plant {
  ranksep=1;
  node [shape=box, style=rounded, fontname="Helvetica"];
  edge [fontname="Helvetica", fontsize=11];
  {
    rank=same;
    layer0 [label="layer 0", shape=plaintext];
    0 [label="0\nt0"];
    1 [label="1\nt0"];
  }
  {
    rank=same;
    layer1 [label="layer 1", shape=plaintext];
    2 [label="2\nt0"];
    3 [label="3\nt0"];
  }
  {
    rank=same;
    layer2 [label="layer 2", shape=plaintext];
    4 [label="4\nt0"];
    5 [label="5\nt0"];
  }
  layer0 -> layer1 -> layer2 [style=invis];
  edge [color="#0067a5", fontcolor="#0067a5"];
  0 -> 3 [label="k0", dir=both];
  1 -> 3 [label="k0", dir=both];
  edge [color="#b24700", fontcolor="#b24700"];
  2 -> 5 [label="k0", dir=both];
  3 -> 5 [label="k0", dir=both];
  edge [color="#00703c", fontcolor="#00703c"];
  1 -> 4 [label="k0", dir=both];
  1 -> 5 [label="k0", dir=both];
}
"##;

#[test]
fn a_plant_in_each_form() {
    let folder = Folder::with(&[("s.hex", BOTH_WAYS)]);
    folder.write("s", from_hex(BOTH_WAYS));
    let text = format!("{BOTH_WAYS_SAID}{BOTH_WAYS_TEXT}");
    let records = format!("# {BOTH_WAYS_SAID}{BOTH_WAYS_RECORDS}");
    for (form, expected) in [
        (&[][..], &text[..]),
        (&["--records"], &records),
        (&["--dot"], BOTH_WAYS_DOT),
    ] {
        for file in ["s.hex", "s"] {
            run(&folder, &[&["draw", file], form].concat()).is(0, expected, "");
        }
        let of_input = [&["draw"], form, &["-"]].concat();
        run_on(&folder, &of_input, BOTH_WAYS.as_bytes()).is(0, expected, "");
    }
    let ran = run(&folder, &["draw", "--json", "s.hex"]);
    let front = r#"{"file":"s.hex","answer":"drawn","survivors":2,"items":6,"connections":12,"#;
    let first = concat!(
        r#""item_list":[{"item":0,"layer":0,"survivor":0,"pairing":975,"#,
        r#""traits":[{"trait":0,"text":"t0"}],"fresh":[{"mark":3,"text":"t0 and t0"}]},"#,
    );
    let last = "{\"from\":5,\"to\":3,\"link\":0,\"text\":\"k0\"}]}\n";
    assert!(ran.out.starts_with(&[front, first].concat()), "{}", ran.out);
    assert!(ran.out.ends_with(last), "{}", ran.out);
    assert_eq!(objects(&ran.out).len(), 1);
    ran.is(0, &ran.out, "");
}

/// No bytes: the one pairing, without marks, three times.
#[test]
fn the_smallest_plant() {
    let folder = Folder::with(&[("s0", "")]);
    let said = "This plant of 3 items and 0 connections keeps every rule of the sheet; it has \
                three layers of 1 item, one for each survivor.\n";
    let table = "
item  layer  survivor   pairing  traits
   0      0         0         0  none
   1      1         0         0  none
   2      2         0         0  none

no connections
";
    run(&folder, &["draw", "s0"]).is(0, &format!("{said}{table}"), "");
    let records = "
40 00 00            # 0  item 0: none
40 00 00            # 1  item 1: none
40 00 00            # 2  item 2: none
";
    let records = format!("# {}{records}", said.trim_end());
    run(&folder, &["draw", "--records", "s0"]).is(0, &records, "");
}

/// The bytes that the plants of worked sheets take.
#[test]
fn lengths() {
    for (sheet, survivors, length) in [
        ("", 1, 9),
        ("03 00", 4, 36),
        ("10 00", 4, 324),
        (S1, 16, 2_448),
        (JUDGED[6].0, 85, 25_569),
    ] {
        let folder = Folder::with(&[("s.hex", sheet)]);
        let ran = run(&folder, &["draw", "--records", "s.hex"]);
        let bytes = ran.out.lines().map(|line| line.split('#').next());
        let bytes = bytes.map(|hex| from_hex(hex.unwrap_or_default()).len());
        assert_eq!(bytes.sum::<usize>(), length, "{sheet}");
        let layers = format!("three layers of {}, ", count(survivors, "item"));
        assert!(ran.out.contains(&layers), "{}", ran.out);
        ran.is(0, &ran.out, "");
    }
}

/// S2 has no survivors.
#[test]
fn a_sheet_that_cannot_be_met() {
    let folder = Folder::with(&[("s2.hex", JUDGED[2].0)]);
    let none = "No finite plant of at least one item keeps all rules of this sheet, so there is \
                none to draw.";
    let text = format!("cannot be met\n{none}\n");
    let object = format!("{{\"file\":\"s2.hex\",\"answer\":\"unmet\",\"sentence\":\"{none}\"}}\n");
    for form in FORMS {
        let expected = if form == ["--json"] { &object } else { &text };
        run(&folder, &[&["draw", "s2.hex"], form].concat()).is(1, expected, "");
    }
}

/// Traits alone, of which each pairing survives: with five there are 1,024, with
/// twelve 2^24.
#[test]
fn too_many_survivors() {
    let folder = Folder::with(&[("five.hex", "03 04"), ("twelve.hex", "03 0B")]);
    for (file, sheet) in [("five.hex", [3, 4]), ("twelve.hex", [3, 11])] {
        let refusal = lodhrussi::drawn_plant(&sheet, &mut vec![0; 1 << 18]);
        let sentence = refusal.expect_err("too many survivors").explain(&sheet);
        let text = format!("{file}: refused 27\n{sentence}\n");
        let object = Json::Object(vec![
            ("file".into(), file.into()),
            ("answer".into(), "refused".into()),
            ("number".into(), 27.into()),
            ("place".into(), 0.into()),
            ("sentence".into(), Json::from(&sentence[..])),
        ]);
        for form in FORMS {
            let ran = run(&folder, &[&["draw", file], form].concat());
            if form == ["--json"] {
                assert_eq!(objects(&ran.out), slice::from_ref(&object));
                ran.is(2, &ran.out, "");
            } else {
                ran.is(2, &text, "");
            }
        }
    }
}

/// A sheet is refused as it is when it is judged.
#[test]
fn refused_sheets() {
    let folder = Folder::with(&[
        ("a.hex", "04 00"),
        ("b.hex", "03 00 04 00 05 01 01"),
        ("c.hex", "03 0B 10 00"),
        ("d.ofn", "SubClassOf(:t0 :t12)"),
    ]);
    for file in ["a.hex", "b.hex", "c.hex", "d.ofn"] {
        let judged = run(&folder, &["judge", file]).out;
        let object = run(&folder, &["judge", "--json", file]).out;
        for form in FORMS {
            let expected = if form == ["--json"] { &object } else { &judged };
            run(&folder, &[&["draw", file], form].concat()).is(2, expected, "");
        }
    }
}

#[test]
fn a_sheet_as_a_text() {
    let text = "SubClassOf(owl:Thing ObjectSomeValuesFrom(:k0 :t0))\n";
    let folder = Folder::with(&[("s1.ofn", text), ("s1.hex", S1)]);
    let of_sheet = run(&folder, &["draw", "s1.hex"]).out;
    let front = "This plant of 48 items and 384 connections ";
    assert!(of_sheet.starts_with(front), "{of_sheet}");
    run(&folder, &["draw", "s1.ofn"]).is(0, &of_sheet, "");
    run_on(&folder, &["draw", "-"], text.as_bytes()).is(0, &of_sheet, "");
}

/// The names beside the sheet, and others.
#[test]
fn names() {
    let folder = Folder::with(&[("s.hex", BOTH_WAYS), ("other", "t0 = coil")]);
    folder.write("s.names", "t0 = reheat coil\nk0 = feeds\n");
    let table = "
item  layer  survivor   pairing  traits         fresh marks
   0      0         0       975  'reheat coil'  'reheat coil' and 'reheat coil'
   1      0         1      1023  'reheat coil'  'reheat coil' and 'reheat coil'
   2      1         0       975  'reheat coil'  'reheat coil' and 'reheat coil'
   3      1         1      1023  'reheat coil'  'reheat coil' and 'reheat coil'
   4      2         0       975  'reheat coil'  'reheat coil' and 'reheat coil'
   5      2         1      1023  'reheat coil'  'reheat coil' and 'reheat coil'

from  link   to
   0  feeds  3
   1  feeds  3, 4, 5
   2  feeds  5
   3  feeds  0, 1, 5
   4  feeds  1
   5  feeds  1, 2, 3
";
    let text = format!("{BOTH_WAYS_SAID}{table}");
    run(&folder, &["draw", "s.hex"]).is(0, &text, "");
    let with_names = |text: &str| text.replace("t0", "'reheat coil'").replace("k0", "feeds");
    let records = format!("# {BOTH_WAYS_SAID}{}", with_names(BOTH_WAYS_RECORDS));
    run(&folder, &["draw", "--records", "s.hex"]).is(0, &records, "");
    let dot = with_names(BOTH_WAYS_DOT);
    run(&folder, &["draw", "--dot", "s.hex"]).is(0, &dot, "");
    let dot = BOTH_WAYS_DOT.replace("t0", "coil");
    let arguments = ["draw", "s.hex", "--dot", "--names=other"];
    run(&folder, &arguments).is(0, &dot, "");
    let arguments = ["draw", "s.hex", "--dot", "--names", "-"];
    run_on(&folder, &arguments, b"t0 = coil").is(0, &dot, "");
    let missing = "lodhrussi: there is no file none\n";
    run(&folder, &["draw", "s.hex", "--names", "none"]).is(3, "", missing);
}

/// Quotes, backslashes and what begins a character by its name.
#[test]
fn names_that_say_something_in_dot() {
    let folder = Folder::with(&[("s.hex", BOTH_WAYS)]);
    folder.write("s.names", "t0 = a \"b\" \\N &lt; {c|d}\nk0 = \\\n");
    let dot = BOTH_WAYS_DOT
        .replace("t0", r#"'a \"b\" \\N &amp;lt; {c|d}'"#)
        .replace("k0", r"'\\'");
    run(&folder, &["draw", "--dot", "s.hex"]).is(0, &dot, "");
}

/// Links that go the same way between two items stand in one label: k0 is within
/// k1, and k1 within not k0 reversed and not k1 reversed.
#[test]
fn several_links_between_two_items() {
    let sheet = "10 00 10 01 11 00 11 01 14 02 03 12 04 21 00 01 21 01 05";
    let folder = Folder::with(&[("s.hex", sheet)]);
    let ran = run(&folder, &["draw", "--dot", "s.hex"]);
    let edges = ran.out.lines().filter(|line| line.contains("label=\"k"));
    let edges: BTreeSet<_> = edges.filter_map(|line| line.split('[').nth(1)).collect();
    let expected = [
        "label=\"k0, k1\", dir=back];",
        "label=\"k0, k1\"];",
        "label=\"k1\", dir=back];",
        "label=\"k1\"];",
    ];
    assert!(edges.iter().eq(&expected), "{edges:?}");
    ran.is(0, &ran.out, "");
}

/// Asserts that what is printed as records is checked, and holds.
#[track_caller]
fn assert_checks(folder: &Folder, sheet: &str, records: &str, layers: &Layers) {
    folder.write("plant", records);
    let (items, connections) = (3 * layers.len(), layers.connections());
    let pairings = layers.len();
    let keeps = format!(
        "keeps the sheet\nitems {items}, connections {connections}; pairings {pairings}\n\
         This plant of {} and {} keeps every rule of the sheet; it has {}.\n",
        count(items as u64, "item"),
        count(connections as u64, "connection"),
        count(pairings as u64, "different pairing")
    );
    run(folder, &["check", sheet, "plant"]).is(0, &keeps, "");
}

/// A made-up sheet whose plant, if it has one, has not too many connections to be
/// drawn in each form.
fn sheet(turn: u64, random: &mut Random) -> (Vec<u8>, Result<Layers, usize>) {
    const MANY: usize = 10_000;
    let size = 1 + turn as usize % 8;
    loop {
        let sheet = match turn % 3 {
            0 => made_up::small_sheet(size, random),
            1 => few_axioms::sheet(size, random),
            _ => with_fresh_name(size.max(3), random),
        };
        let layers = Layers::of(&sheet);
        if !layers
            .as_ref()
            .is_ok_and(|layers| layers.connections() > MANY)
        {
            return (sheet, layers);
        }
    }
}

/// Made-up sheets, in each form, against the reference; and what is printed as
/// records is checked.
#[test]
fn made_up_sheets() {
    let mut random = Random::seeded(120);
    let folder = Folder::new();
    let mut found = [0; 4];
    for turn in 0..times(400) {
        let (sheet, layers) = sheet(turn, &mut random);
        folder.write("s", file(&sheet, &mut random));
        let ask = |form: &[&str]| run(&folder, &[&["draw", "s"], form].concat());
        let layers = match layers {
            Ok(layers) => layers,
            Err(survivors) => {
                let (status, first) = match survivors {
                    0 => (1, "cannot be met\n"),
                    _ => (2, "s: refused 27\n"),
                };
                found[status as usize] += 1;
                let ran = ask(&[]);
                assert!(ran.out.starts_with(first), "{}", ran.out);
                ran.is(status, &ran.out, "");
                continue;
            }
        };
        ask(&[]).is(0, &layers.text(), "");
        ask(&["--dot"]).is(0, &layers.dot(), "");
        let ran = ask(&["--json"]);
        assert_eq!(objects(&ran.out), [layers.object("s")]);
        ran.is(0, &ran.out, "");
        let ran = ask(&["--records"]);
        ran.is(0, &layers.records(), "");
        assert_checks(&folder, "s", &ran.out, &layers);
        found[0] += 1;
        found[3] += usize::from(layers.has_fresh());
    }
    let tally = format!(
        "{} sheets; drawn, cannot be met, too many survivors, with fresh marks: {found:?}",
        times(400)
    );
    report("draw, made-up sheets", &tally);
    assert!(found.iter().all(|count| *count >= 10), "{tally}");
}

/// Four links without a rule: each of 256 survivors has other links, and each is
/// joined to each of the next layer.
#[test]
fn the_longest_plants() {
    let folder = Folder::with(&[("s.hex", "10 03")]);
    let layers = Layers::of(&from_hex("10 03")).expect("a plant");
    let ran = run(&folder, &["draw", "--records", "s.hex"]);
    assert!(ran.out == layers.records());
    assert_checks(&folder, "s.hex", &ran.out, &layers);
    assert_eq!(layers.connections(), 786_432);
    let ran = run(&folder, &["draw", "s.hex"]);
    assert!(ran.out == layers.text());
}

/// The sheet of the trade of which the README shows a plant, and the picture of
/// that: it has the items and the connections that are drawn.
#[test]
fn the_picture_in_the_repository() {
    let root = Path::new(env!("CARGO_MANIFEST_DIR")).join("../..");
    let picture = fs::read_to_string(root.join("docs/boiler.svg")).expect("a picture");
    let texts = |tag: &str| {
        let tag = format!("<{tag}");
        let texts = picture.split(&tag).skip(1);
        let texts = texts.filter_map(|text| text.split_once('>')?.1.split_once('<'));
        let mut texts: Vec<_> = texts
            .map(|(text, _)| text.replace("&#45;&gt;", " -> "))
            .collect();
        texts.sort();
        texts
    };
    let sheet = root.join("sheets/boiler.hex");
    let ran = run(
        &Folder::new(),
        &["draw".as_ref(), "--dot".as_ref(), sheet.as_os_str()],
    );
    let lines = || ran.out.lines().map(str::trim);
    let titles = lines().filter_map(|line| line.split_once(" [label="));
    let titles = titles.map(|(title, _)| title.into());
    let mut titles: Vec<_> = titles.chain([String::from("plant")]).collect();
    titles.sort();
    assert_eq!(texts("title"), titles);
    let labels = lines().filter_map(|line| line.split_once("label=\"")?.1.split_once('"'));
    let labels = labels.flat_map(|(label, _)| label.split("\\n").map(String::from));
    let mut labels: Vec<_> = labels.collect();
    labels.sort();
    assert_eq!(texts("text"), labels);
}
