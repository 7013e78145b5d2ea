//! `lodhrussi strike`.

use crate::folder::Folder;
use crate::json::objects;
use crate::run::{run, run_on};
use crate::sheets::file;
use crate::words;
use comparison::random::Random;
use comparison::suites::{report, times};
use comparison::worked::{from_hex, N8, N8_MET, S1, S4, S5, TWELVE};
use comparison::{few_axioms, made_up};
use reference::domino::{Domino, Shape};
use reference::flat::flatten;
use reference::Verdict;

/// Document 01's strikes on S1.
const ON_S1: &str = "\
32: struck by condition 6, sym: Its mirror image is missing.
  left marks some k0 . t0
  links none
  right marks none
2: absent
  left marks none
  links none
  right marks some k0 . t0
34: kept
  left marks some k0 . t0
  links none
  right marks some k0 . t0
64: refused 11: The pairing number is too large: the sheet has no pairing of that number. \
With 2 marks and 1 link the pairings are numbered 0 to 63.
";

#[test]
fn the_worked_strikes() {
    let folder = Folder::with(&[("s1.hex", S1)]);
    run(&folder, &["strike", "s1.hex", "32", "2", "34", "64"]).is(2, ON_S1, "");
    let arguments = ["strike", "-", "32", "2", "34", "64"];
    run_on(&folder, &arguments, &from_hex(S1)).is(2, ON_S1, "");
    let answered: String = ON_S1
        .lines()
        .take(12)
        .map(|line| format!("{line}\n"))
        .collect();
    run(&folder, &["strike", "s1.hex", "32", "2", "34"]).is(0, &answered, "");
}

/// Each strike meets the set as the last one left it.
#[test]
fn one_after_another() {
    let folder = Folder::with(&[("s1.hex", S1)]);
    let pairing = "  left marks some k0 . t0\n  links none\n  right marks none\n";
    let expected = format!(
        "32: struck by condition 6, sym: Its mirror image is missing.\n{pairing}\
         32: absent\n{pairing}32: absent\n{pairing}"
    );
    run(&folder, &["strike", "s1.hex", "32", "032", "32"]).is(0, &expected, "");
}

/// Partners that are missing, links in both directions.
#[test]
fn conditions_4_and_5() {
    let folder = Folder::with(&[("s4.hex", S4), ("s5.hex", S5)]);
    let of_s4 = "\
8: struck by condition 4, delex: A partner for a 'some' claim is missing.
  left marks some k0 . nothing
  links none
  right marks none
15: struck by condition 4, delex: A partner for a 'some' claim is missing.
  left marks some k0 . nothing
  links k0, k0 reversed
  right marks some k0 . nothing
";
    run(&folder, &["strike", "s4.hex", "8", "15"]).is(0, of_s4, "");
    let of_s5 = "\
16: struck by condition 5, deluni: The left side lacks an 'only' claim, and a partner that \
would break it is missing.
  left marks t0
  links none
  right marks none
63: kept
  left marks t0, only k0 . everything
  links k0, k0 reversed
  right marks t0, only k0 . everything
";
    run(&folder, &["strike", "s5.hex", "16", "63"]).is(0, of_s5, "");
}

/// What breaks a link rule is not opened; document 02's sheet (N8) then lacks a
/// partner.
#[test]
fn a_link_rule() {
    let folder = Folder::with(&[("met.hex", N8_MET), ("n8.hex", N8)]);
    let sides = "  left marks some k0 . everything, only k1 . nothing\n  links k0\n  \
                 right marks none\n";
    let of_met = format!("196: struck by condition 6, sym: Its mirror image is missing.\n{sides}");
    run(&folder, &["strike", "met.hex", "196"]).is(0, &of_met, "");
    let missing = "A partner for a 'some' claim is missing.";
    let of_n8 = format!(
        "196: absent\n{sides}192: struck by condition 4, delex: {missing}\n{}",
        sides.replace("links k0", "links none")
    );
    run(&folder, &["strike", "n8.hex", "196", "192"]).is(0, &of_n8, "");
}

#[test]
fn the_largest_numbers() {
    let folder = Folder::with(&[("twelve.hex", TWELVE)]);
    let all = "t0, t1, t2, t3, t4, t5, t6, t7, t8, t9, t10, t11";
    let sentence = "The pairing number is too large: the sheet has no pairing of that number. \
                    With 12 marks and 0 links the pairings are numbered 0 to 16777215.";
    let expected = format!(
        "16777215: kept\n  left marks {all}\n  links none\n  right marks {all}\n\
         16777216: refused 11: {sentence}\n\
         18446744073709551615: refused 11: {sentence}\n"
    );
    let numbers = ["16777215", "16777216", "18446744073709551615"];
    let arguments = [&["strike", "twelve.hex"][..], &numbers].concat();
    run(&folder, &arguments).is(2, &expected, "");
}

#[test]
fn json() {
    let folder = Folder::with(&[("s1.hex", S1)]);
    let expected = "\
{\"file\":\"s1.hex\",\"answer\":\"struck\",\"pairing\":32,\"condition\":6,\"name\":\"sym\",\
\"sentence\":\"Its mirror image is missing.\",\"left\":[{\"mark\":1,\"text\":\"some k0 . t0\"}],\
\"links\":[],\"right\":[]}
{\"file\":\"s1.hex\",\"answer\":\"absent\",\"pairing\":2,\"left\":[],\"links\":[],\
\"right\":[{\"mark\":1,\"text\":\"some k0 . t0\"}]}
{\"file\":\"s1.hex\",\"answer\":\"kept\",\"pairing\":47,\
\"left\":[{\"mark\":1,\"text\":\"some k0 . t0\"}],\
\"links\":[{\"link\":0,\"reversed\":false,\"text\":\"k0\"},\
{\"link\":0,\"reversed\":true,\"text\":\"k0 reversed\"}],\
\"right\":[{\"mark\":0,\"text\":\"t0\"},{\"mark\":1,\"text\":\"some k0 . t0\"}]}
{\"file\":\"s1.hex\",\"answer\":\"refused\",\"number\":11,\"place\":0,\
\"sentence\":\"The pairing number is too large: the sheet has no pairing of that number. \
With 2 marks and 1 link the pairings are numbered 0 to 63.\",\"pairing\":64}
";
    let arguments = ["strike", "--json", "s1.hex", "32", "2", "47", "64"];
    run(&folder, &arguments).is(2, expected, "");
    assert_eq!(objects(expected).len(), 4);
    let missing = "{\"file\":\"none.hex\",\"answer\":\"trouble\",\
                   \"sentence\":\"there is no file none.hex\"}\n";
    run(&folder, &["strike", "--json", "none.hex", "0"]).is(
        3,
        missing,
        "lodhrussi: there is no file none.hex\n",
    );
}

/// Names and sentences of the conditions.
const CONDITIONS: [(&str, &str); 7] = [
    ("kb", "The left side breaks a rule of the sheet."),
    (
        "ex",
        "The left side lacks a 'some' claim that the right side meets.",
    ),
    (
        "uni",
        "The right side breaks an 'only' claim of the left side.",
    ),
    ("delex", "A partner for a 'some' claim is missing."),
    (
        "deluni",
        "The left side lacks an 'only' claim, and a partner that would break it is missing.",
    ),
    ("sym", "Its mirror image is missing."),
    (
        "rbox",
        "The links between the two sides break a link rule of the sheet.",
    ),
];

/// The members of a set of bits, in words.
fn list(bits: u64, word: impl Fn(usize) -> String) -> String {
    let members = (0..64).filter(|bit| bits >> bit & 1 == 1);
    let words: Vec<_> = members.map(word).collect();
    if words.is_empty() {
        return "none".into();
    }
    words.join(", ")
}

fn link(bit: usize) -> String {
    let reversed = if bit % 2 == 1 { " reversed" } else { "" };
    format!("k{}{reversed}", bit / 2)
}

/// What is to be said of strikes on a sheet without faults; counts verdicts.
fn said(sheet: &[u8], numbers: &[u64], verdicts: &mut [u64; 10]) -> String {
    let kb = flatten(sheet).expect("a sheet without faults");
    let marks = words::parts(&kb);
    let shape = Shape {
        parts: kb.parts.len(),
        roles: kb.roles,
    };
    let mut set = vec![0; shape.words()];
    reference::open(sheet, &mut set).expect("a set long enough");
    let mut said = String::new();
    for &number in numbers {
        let strike = reference::strike(sheet, &mut set, number).expect("a pairing");
        let (at, verdict) = match strike.verdict {
            Verdict::Absent => (8, "absent".into()),
            Verdict::Kept => (9, "kept".into()),
            Verdict::Struck { condition } => {
                let (name, sentence) = CONDITIONS[usize::from(condition) - 1];
                let verdict = format!("struck by condition {condition}, {name}: {sentence}");
                (usize::from(condition), verdict)
            }
        };
        verdicts[at] += 1;
        let Domino { left, roles, right } = shape.domino(number);
        let [left, right] = [left, right].map(|label| list(label, |mark| marks[mark].clone()));
        let links = list(roles, link);
        said += &format!(
            "{number}: {verdict}\n  left marks {left}\n  links {links}\n  right marks {right}\n"
        );
    }
    said
}

/// Lists of strikes on made-up sheets, against the reference.
#[test]
fn made_up_sheets() {
    let mut random = Random::seeded(83);
    let folder = Folder::new();
    let (mut compared, mut verdicts) = (0, [0; 10]);
    for turn in 0..times(500) {
        let size = 2 + turn as usize % 5;
        let sheet = match turn % 3 {
            0 => made_up::small_sheet(size, &mut random),
            1 => few_axioms::sheet(size, &mut random),
            _ => few_axioms::unmet_sheet(size, &mut random),
        };
        let counts = reference::read(&sheet).expect("a sheet without faults");
        let dominoes = 1 << (2 * (counts.marks() + counts.links));
        let numbers: Vec<_> = (0..60).map(|_| random.word() % dominoes).collect();
        folder.write("sheet", file(&sheet, &mut random));
        let mut arguments = vec!["strike".to_string(), "sheet".into()];
        arguments.extend(numbers.iter().map(ToString::to_string));
        let expected = said(&sheet, &numbers, &mut verdicts);
        run(&folder, &arguments).is(0, &expected, "");
        compared += numbers.len();
    }
    let tally = format!(
        "{compared} strikes; by condition, absent, kept: {:?}",
        &verdicts[1..]
    );
    report("strike, made-up sheets", &tally);
    // What was opened meets the conditions 1 to 3 and 7 for good.
    let [_, kb, ex, uni, after @ .., rbox, absent, kept] = verdicts;
    assert_eq!([kb, ex, uni, rbox], [0; 4]);
    let mut seen = after.into_iter().chain([absent, kept]);
    assert!(seen.all(|count| count >= 100), "{tally}");
    assert_eq!(compared, 60 * times(500) as usize);
}
