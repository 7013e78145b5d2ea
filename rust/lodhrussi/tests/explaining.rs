//! What a refusal says of a sheet, on damaged sheets and random bytes, and of a
//! text, on damaged texts.

use comparison::misreference::{self, Case};
use comparison::random::Random;
use comparison::records::{body_length, reference_at, wants};
use comparison::suites::{report, times};
use comparison::{damage, owl, REFUSALS};
use lodhrussi::{Call, Refusal};

/// Where each record starts, by walking the bytes.
fn starts(sheet: &[u8]) -> Vec<usize> {
    let mut starts = vec![];
    let mut start = 0;
    while let Some(&kind) = sheet.get(start) {
        starts.push(start);
        match body_length(kind) {
            Some(length) => start += 1 + length,
            None => break,
        }
    }
    starts
}

/// What is said of the record of that number, up to its kind in words.
fn shown_record(number: usize, sheet: &[u8]) -> String {
    format!("record {number} ({:02X}, ", sheet[starts(sheet)[number]])
}

/// What is to be said of the byte at `place`, after its value.
fn belongs(sheet: &[u8], place: usize) -> String {
    let starts = starts(sheet);
    let number = starts.partition_point(|&start| start <= place) - 1;
    let of = shown_record(number, sheet);
    match (
        reference_at(sheet, place),
        wants(sheet[starts[number]]).len(),
    ) {
        (None, _) => format!(" and begins record {number}"),
        (Some(_), 1) => format!(", the only reference of {of}"),
        (Some((_, 0)), _) => format!(", the first reference of {of}"),
        (Some(_), _) => format!(", the second reference of {of}"),
    }
}

/// What is to be said of what the reference at `place` names.
fn names(number: u64, sheet: &[u8], place: usize) -> Vec<String> {
    let target = sheet[place];
    if number == 5 {
        return vec![format!(": it names record {target}, and ")];
    }
    let named = shown_record(usize::from(target), sheet);
    let mut says = vec![format!(": it names {named}")];
    if number == 7 {
        let is_before = |&at: &usize| sheet[at] == target && reference_at(sheet, at).is_some();
        let before = (0..place).find(is_before).expect("an earlier reference");
        says.push(format!("which the reference at byte {before} named before"));
    }
    says
}

/// Asserts that a sheet's own refusal names the byte at its place, what that
/// byte belongs to, and what it names.
#[track_caller]
fn assert_explained(refusal: Refusal, sheet: &[u8]) {
    let text = refusal.explain(sheet);
    let what = format!("{sheet:02X?}: {text}");
    let shown = text.strip_prefix(&format!("{refusal} ")).expect(&what);
    if refusal.number == 9 {
        assert!(shown.starts_with("It has "), "{what}");
        return;
    }
    let place = refusal.place as usize;
    let byte = format!("Byte {place} is {:02X}", sheet[place]);
    assert!(shown.starts_with(&byte), "{what}");
    let mut says = vec![belongs(sheet, place)];
    if reference_at(sheet, place).is_some() {
        says.extend(names(refusal.number, sheet, place));
    }
    for says in says {
        assert!(shown.contains(&says), "{what}, not {says}");
    }
}

/// The refusal that a call has of these bytes, a sheet or a text.
fn own(call: Call, bytes: &[u8]) -> Option<(u64, u64)> {
    let refusal = match call {
        Call::Import => lodhrussi::imported(bytes).err(),
        Call::Export => lodhrussi::exported(bytes).err(),
        _ => lodhrussi::read(bytes).err(),
    };
    refusal.map(|refusal| (refusal.number, refusal.place))
}

/// Asserts that any refusal says something of any sheet, and nothing of its
/// bytes where another fault comes first or none.
fn assert_any_explained(sheet: &[u8], random: &mut Random) {
    for number in (0..REFUSALS as u64 + 2).chain([random.word()]) {
        let (near, far) = (random.below(sheet.len() + 2) as u64, random.word());
        let refusal = Refusal {
            call: random.pick(&Call::ALL),
            number,
            place: random.pick(&[0, near, near, far]),
        };
        let (text, sentence) = (refusal.explain(sheet), refusal.to_string());
        assert!(text.starts_with(&sentence), "{sheet:02X?}: {text}");
        let is_own = own(refusal.call, sheet) == Some((number, refusal.place));
        if !is_own && !matches!(number, 10..=12 | 21 | 24 | 27) {
            assert_eq!(text, sentence, "{sheet:02X?}");
        }
    }
}

/// By turns a sheet with a faulty reference, random bytes, and damaged sheets.
fn any_sheet(turn: usize, random: &mut Random) -> Vec<u8> {
    let cases = Case::all();
    match turn % 4 {
        0 => misreference::sheet(cases[turn / 4 % cases.len()], random).0,
        1 => damage::noise(random),
        _ => damage::damaged(random),
    }
}

#[test]
fn every_sheet_and_refusal() {
    let mut random = Random::seeded(17);
    let mut explained = [0; REFUSALS];
    for turn in 0..times(20_000) as usize {
        let sheet = any_sheet(turn, &mut random);
        if let Err(refusal) = lodhrussi::read(&sheet) {
            assert_explained(refusal, &sheet);
            explained[refusal.number as usize] += 1;
        }
        assert_any_explained(&sheet, &mut random);
    }
    let numbers = (1..=9).chain([16, 17]);
    let counts: Vec<String> = numbers
        .clone()
        .map(|number| format!("{number}: {}", explained[number]))
        .collect();
    report("explaining", &counts.join(" "));
    for number in numbers {
        assert!(explained[number] >= 100, "refusal {number} is rare");
    }
}

/// What is told as wanted, with a word of that sort.
const WANTED: [(&str, &str); 6] = [
    ("SubClassOf", "SubClassOf"),
    ("'('", "("),
    ("')'", ")"),
    ("a class ", ":t3"),
    ("a link ", "ObjectInverseOf"),
    ("the name of a link ", ":k2"),
];

/// Whether a word may come after the beginning of a text.
fn may_come(before: &[u8], word: &str) -> bool {
    let text = [before, b"\n", word.as_bytes()].concat();
    let place = before.len() as u64 + 1;
    let refusal = reference::owl::axioms(&text).err();
    refusal.is_none_or(|refusal| (refusal.number, refusal.place) != (19, place))
}

/// Asserts that a text's own refusal tells line and column of its place, what
/// stands there, and what may.
#[track_caller]
fn assert_text_explained(refusal: Refusal, text: &[u8]) {
    let said = refusal.explain(text);
    let what = format!("{}: {said}", text.escape_ascii());
    let shown = said.strip_prefix(&format!("{refusal} ")).expect(&what);
    if refusal.number == 3 {
        assert!(
            shown.starts_with("The 256th record begins at line "),
            "{what}"
        );
        return;
    }
    let place = refusal.place as usize;
    let lines: Vec<_> = text[..place].split(|&byte| byte == b'\n').collect();
    let column = lines.last().map_or(0, |line| line.len()) + 1;
    let at = format!("Line {}, column {column}: found ", lines.len());
    let (found, wanted) = shown.split_once("; wanted ").expect(&what);
    assert!(found.starts_with(&at), "{what}");
    let at_end = found.ends_with("found the end of the text");
    assert_eq!(at_end, place == text.len(), "{what}");
    let told = WANTED.iter().find(|(told, _)| wanted.starts_with(told));
    let (_, word) = told.expect(&what);
    assert!(may_come(&text[..place], word), "{what}");
    if *word != ":k2" {
        let others = WANTED.iter().filter(|(_, other)| other != word);
        let may = others.filter(|(_, other)| may_come(&text[..place], other));
        let may: Vec<_> = may.map(|(_, other)| *other).collect();
        assert!(
            may.is_empty() || may == [":k2"] && *word == "ObjectInverseOf",
            "{what}"
        );
    }
}

#[test]
fn every_text_and_refusal() {
    let mut random = Random::seeded(18);
    let mut explained = [0; REFUSALS];
    for turn in 0..times(6_000) {
        let text = match turn % 3 {
            0 => owl::text(&mut random),
            1 => owl::damaged(&mut random),
            _ => owl::soup(&mut random),
        };
        if let Err(refusal) = lodhrussi::imported(&text) {
            assert_text_explained(refusal, &text);
            explained[refusal.number as usize] += 1;
        }
        assert_any_explained(&text, &mut random);
    }
    let counts = [3, 18, 19].map(|number: usize| format!("{number}: {}", explained[number]));
    report("explaining, texts", &counts.join(" "));
    for number in [3, 18, 19] {
        assert!(explained[number] >= 100, "refusal {number} is rare");
    }
}
