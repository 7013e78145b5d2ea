//! `lodhrussi show` on made-up sheets, against the trees and parts of the
//! reference.

use crate::folder::Folder;
use crate::run::run;
use crate::sheets::file;
use crate::words::{self, count};
use comparison::random::Random;
use comparison::records::{body_length, sort, wants, Sort};
use comparison::suites::{report, times};
use comparison::worked::{from_hex, JUDGED};
use comparison::{few_axioms, made_up};
use reference::flat::flatten;
use reference::written::Written;

/// The kinds in document 01's words.
fn kind_words(kind: u8) -> &'static str {
    match kind {
        0x01 => "everything",
        0x02 => "nothing",
        0x03 => "trait",
        0x04 => "not of a class",
        0x05 => "and of classes",
        0x06 => "or of classes",
        0x07 => "some",
        0x08 => "only",
        0x10 => "link as named",
        0x11 => "link reversed",
        0x12 => "not of a link",
        0x13 => "and of links",
        0x14 => "or of links",
        0x20 => "rule",
        _ => "link rule",
    }
}

/// Where the records of a sheet without faults start, and where the sheet ends.
fn bounds(sheet: &[u8]) -> Vec<usize> {
    let mut bounds = vec![0];
    while let Some(&kind) = sheet.get(bounds[bounds.len() - 1]) {
        let length = 1 + body_length(kind).expect("a known kind");
        bounds.push(bounds[bounds.len() - 1] + length);
    }
    bounds
}

/// Marks a record and all that it reaches.
fn reach(records: &[&[u8]], number: usize, reached: &mut [bool]) {
    reached[number] = true;
    let record = records[number];
    for &named in record[1..].iter().take(wants(record[0]).len()) {
        reach(records, usize::from(named), reached);
    }
}

/// The axioms and role inclusions, in the sheet's order.
fn rules(written: &Written) -> Vec<String> {
    let axioms = written.axioms.iter().map(words::axiom);
    let inclusions = written.inclusions.iter().map(words::inclusion);
    let axioms = written.starts.iter().zip(axioms);
    let inclusions = written.inclusion_starts.iter().zip(inclusions);
    let mut rules: Vec<_> = axioms.chain(inclusions).collect();
    rules.sort();
    rules.into_iter().map(|(_, rule)| rule).collect()
}

/// The rows of the records of a sheet without faults.
fn rows(sheet: &[u8], written: &Written) -> String {
    let bounds = bounds(sheet);
    let records: Vec<_> = bounds
        .windows(2)
        .map(|ends| &sheet[ends[0]..ends[1]])
        .collect();
    let mut reached = vec![false; records.len()];
    for (number, record) in records.iter().enumerate() {
        if sort(record[0]).is_none() {
            reach(&records, number, &mut reached);
        }
    }
    let mut rules = rules(written).into_iter();
    let mut rows = String::new();
    for (number, (record, start)) in records.iter().zip(&bounds).enumerate() {
        let bytes: Vec<_> = record.iter().map(|byte| format!("{byte:02X}")).collect();
        let text = match sort(record[0]) {
            Some(Sort::Concept) => words::concept(&written.concept(number)),
            Some(Sort::Role) => words::role(&written.role(number)),
            None => rules.next().expect("an axiom or a role inclusion"),
        };
        let (bytes, kind) = (bytes.join(" "), kind_words(record[0]));
        let unused = if reached[number] { "" } else { " (unused)" };
        rows += &format!("{number:>6}  {start:>4}  {bytes:<8}  {kind:<14}  {text}{unused}\n");
    }
    rows
}

/// The rows of the parts.
fn part_rows(sheet: &[u8], marks: u64) -> String {
    let mut list = vec![[0; 3]; marks as usize];
    let listed = reference::list_marks(sheet, list.as_flattened_mut());
    listed.expect("a sheet without faults");
    let texts = words::parts(&flatten(sheet).expect("a sheet without faults"));
    let mut rows = String::new();
    for (number, ([kind, record, odd], text)) in list.into_iter().zip(texts).enumerate() {
        let words = ["trait", "fresh", "some", "only"][usize::from(kind)];
        let (record, nots) = match (kind, odd) {
            (0, _) => ("-".into(), "-"),
            (_, 0) => (record.to_string(), "even"),
            _ => (record.to_string(), "odd"),
        };
        rows += &format!("{number:>4}  {words:<5}  {record:>6}  {nots:<4}  {text}\n");
    }
    rows
}

/// What is to be shown of a sheet without faults.
fn shown(name: &str, sheet: &[u8]) -> String {
    let counts = reference::read(sheet).expect("a sheet without faults");
    let written = Written::read(sheet).expect("a sheet without faults");
    let (bytes, records) = (sheet.len(), bounds(sheet).len() - 1);
    let mut text = format!(
        "{name}: {}, {}\n",
        count(bytes as u64, "byte"),
        count(records as u64, "record")
    );
    if records > 0 {
        text += "record  byte  bytes     kind            stands for\n";
        text += &rows(sheet, &written);
    }
    let rules = rules(&written);
    text += if rules.is_empty() {
        "\nno rules\n"
    } else {
        "\nrules\n"
    };
    for rule in rules {
        text += &format!("  {rule}\n");
    }
    let marks = counts.marks();
    let reference::Counts {
        traits,
        fresh,
        some,
        only,
        links,
    } = counts;
    text += &format!(
        "\nmarks {marks} (traits {traits}, fresh {fresh}, some {some}, only {only}), \
         links {links}\n"
    );
    if marks > 0 {
        text += "mark  kind   record  nots  stands for\n";
        text += &part_rows(sheet, marks);
    }
    text
}

/// Worked and made-up sheets.
#[test]
fn made_up_sheets() {
    let mut random = Random::seeded(82);
    let folder = Folder::new();
    let mut sheets: Vec<_> = JUDGED.iter().map(|&(hex, ..)| from_hex(hex)).collect();
    for turn in 0..times(500) {
        let size = 1 + random.below(12);
        sheets.push(match turn % 3 {
            0 => made_up::sheet(&mut random).bytes,
            1 => made_up::repeating_sheet(&mut random).bytes,
            _ => few_axioms::sheet(size, &mut random),
        });
    }
    let (mut compared, mut lines) = (0, 0);
    for sheet in sheets.iter().filter(|sheet| reference::read(sheet).is_ok()) {
        folder.write("sheet", file(sheet, &mut random));
        let expected = shown("sheet", sheet);
        run(&folder, &["show", "sheet"]).is(0, &expected, "");
        compared += 1;
        lines += expected.lines().count();
    }
    report(
        "show, made-up sheets",
        &format!("{compared} sheets, {lines} lines"),
    );
    assert!(compared >= 350 && lines >= 10_000);
}
