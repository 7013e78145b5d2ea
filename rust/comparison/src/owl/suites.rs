//! The comparisons of one engine with the reference, from and to OWL 2
//! functional-style syntax.

use super::worked::{Outcome, BOTH_WAYS, EXPORTED, IMPORTED};
use super::{
    damaged, laid_out, nested, soup, text, tokens, with_inclusion, with_shared_leaves, with_text,
    with_unused_roles, with_used_role, with_used_role_and_inclusion, Call, Tally, MAX_RECORDS,
};
use crate::hex::{from_hex, Hex};
use crate::random::Random;
use crate::suites::times;
use crate::{damage, few_axioms, made_up, worked, Judging, Reference, Translating};
use reference::{Counts, Judgement, Refusal};
use std::fmt;

/// The lengths of the longest sheet and of a text that is long enough for any.
const SHEET: usize = 3 * MAX_RECORDS;
const TEXT: usize = 1 << 14;

/// The most words that a set may take.
const WORDS: usize = 4_096;

/// Asserts what a call writes or refuses, that the bytes past it are kept, and
/// that one byte less is too short.
#[track_caller]
fn assert_outcome(engine: &impl Translating, call: Call<'_>, expected: Result<&[u8], (u64, u64)>) {
    let mut out = [9; TEXT];
    let answer = call.run(engine, &mut out);
    let answer = answer.map_err(|refusal| (refusal.number, refusal.place));
    assert_eq!(answer, expected.map(<[u8]>::len), "{call}");
    let written = expected.unwrap_or_default();
    assert_eq!(out[..written.len()], *written, "{call}");
    assert!(out[written.len()..].iter().all(|&byte| byte == 9), "{call}");
    if let Some(short) = written.len().checked_sub(1) {
        let mut out = vec![9; short];
        let refusal = call.run(engine, &mut out).unwrap_err();
        assert_eq!((refusal.number, refusal.place), (21, 0), "{call}");
        assert!(out.iter().all(|&byte| byte == 9), "{call}");
    }
}

/// The fixed texts and sheets, without the reference.
///
/// # Panics
///
/// Where the engine answers otherwise.
pub fn fixed(engine: &impl Translating) {
    BOTH_WAYS.iter().for_each(|row| both_ways(engine, *row));
    IMPORTED.iter().for_each(|row| imported(engine, *row));
    EXPORTED.iter().for_each(|row| exported(engine, *row));
}

fn both_ways(engine: &impl Translating, (text, hex): (&str, &str)) {
    let sheet = from_hex(hex);
    assert_outcome(engine, Call::Import(text.as_bytes()), Ok(&sheet));
    assert_outcome(engine, Call::Export(&sheet), Ok(text.as_bytes()));
}

fn imported(engine: &impl Translating, (text, outcome): (&str, Outcome)) {
    let sheet = outcome.map(from_hex);
    let expected = sheet.as_deref().map_err(|&refusal| refusal);
    assert_outcome(engine, Call::Import(text.as_bytes()), expected);
}

fn exported(engine: &impl Translating, (hex, outcome): (&str, Outcome)) {
    let sheet = from_hex(hex);
    let expected = outcome.map(str::as_bytes);
    assert_outcome(engine, Call::Export(&sheet), expected);
}

/// As many records as there may be and one more, without the reference.
///
/// # Panics
///
/// Where the engine answers otherwise.
pub fn most_records(engine: &impl Translating) {
    let full = "SubClassOf(:t0 :t11)\n".repeat(MAX_RECORDS / 3);
    let length = engine.import(full.as_bytes(), &mut [0; SHEET]);
    assert_eq!(length, Ok(7 * MAX_RECORDS / 3));
    for (axioms, more, refusal) in AFTER {
        let text = "SubClassOf(:t0 :t11)\n".repeat(axioms) + more;
        assert_outcome(engine, Call::Import(text.as_bytes()), Err(refusal));
    }
}

/// So many axioms of 21 bytes, what stands after them, and the refusal.
const AFTER: [(usize, &str, (u64, u64)); 12] = [
    (85, "SubClassOf", (3, 0)),
    (85, "SubClassOf x", (3, 0)),
    (85, ":t0", (19, 1785)),
    (85, "x", (18, 1785)),
    (84, "SubClassOf(:t0 ObjectComplementOf(:t0", (3, 0)),
    (
        84,
        "SubClassOf(:t0 ObjectComplementOf(ObjectUnionOf",
        (3, 0),
    ),
    (84, "SubClassOf(:t0 ObjectComplementOf(:k0", (19, 1798)),
    (84, "SubClassOf(:t0 ObjectComplementOf x", (18, 1798)),
    (84, "SubClassOf(:t0 ObjectSomeValuesFrom(:k0", (3, 0)),
    (
        84,
        "SubClassOf(:t0 ObjectSomeValuesFrom(ObjectInverseOf",
        (3, 0),
    ),
    (84, "SubClassOf(:t0 ObjectSomeValuesFrom(:t0", (19, 1800)),
    (
        84,
        "SubClassOf(ObjectSomeValuesFrom(ObjectInverseOf(:k0) :t0",
        (3, 0),
    ),
];

/// Forms in forms, as deep as there may be and deeper, without the reference.
///
/// # Panics
///
/// Where the engine answers otherwise.
pub fn nesting(engine: &impl Translating) {
    for nots in [
        1,
        250,
        MAX_RECORDS - 3,
        MAX_RECORDS - 2,
        MAX_RECORDS,
        10_000,
    ] {
        let text = nested(nots);
        let import = Call::Import(text.as_bytes());
        if nots + 3 > MAX_RECORDS {
            assert_outcome(engine, import, Err((3, 0)));
            continue;
        }
        let sheet = written(engine, import).expect("at most 255 records");
        assert_eq!(sheet.len(), 2 * nots + 7);
        assert_outcome(engine, import, Ok(&sheet));
        assert_outcome(engine, Call::Export(&sheet), Ok(text.as_bytes()));
    }
}

/// Made-up texts, damaged ones, and tokens in any order.
///
/// # Panics
///
/// Where engine and reference differ, or a sort of text is rare.
pub fn made_up_texts(engine: &impl Translating) -> Tally {
    let mut random = Random::seeded(30);
    let mut tally = Tally::default();
    for _ in 0..times(20_000) {
        let texts = [text(&mut random), damaged(&mut random), soup(&mut random)];
        let calls = texts.iter().map(|text| Call::Import(text));
        tally.compare_all(engine, calls, &mut random);
    }
    tally.assert_refused([3, 18, 19, 21], 500);
    assert!(4 * tally.imported >= tally.texts, "{tally}");
    tally
}

/// Every beginning of made-up texts, and outputs of every length.
///
/// # Panics
///
/// Where engine and reference differ.
pub fn beginnings_and_lengths(engine: &impl Translating) -> Tally {
    let mut random = Random::seeded(31);
    let mut tally = Tally::default();
    for _ in 0..times(40) {
        let tokens = tokens(3 + random.below(60), &mut random);
        let text = laid_out(&tokens, &mut random);
        let beginnings = (0..=text.len()).map(|end| Call::Import(&text[..end]));
        tally.compare_all(engine, beginnings, &mut random);
        tally.compare_lengths(engine, Call::Import(&text), &mut random);
        let sheet = with_text(&mut random);
        tally.compare_lengths(engine, Call::Export(&sheet), &mut random);
    }
    tally
}

/// Texts of 1 MB.
///
/// # Panics
///
/// Where engine and reference differ.
pub fn long_texts(engine: &impl Translating) -> Tally {
    let mut random = Random::seeded(32);
    let mut tally = Tally::default();
    let long = 1 << 20;
    let axiom = b"SubClassOf(:t0 :t1)";
    let blanks = vec![b'\n'; long];
    let noise = random.bytes(long);
    let texts = [
        blanks.clone(),
        vec![b'x'; long],
        vec![b'('; long],
        vec![0; long],
        noise.clone(),
        [&axiom[..], &blanks, axiom, &blanks].concat(),
        [&axiom[..], &blanks, b"SubClassOf"].concat(),
        [&blanks[..], &noise].concat(),
        [&axiom[..], &vec![b't'; long]].concat(),
        axiom.repeat(long / axiom.len()),
        nested(long / 20).into_bytes(),
        soup(&mut random).repeat(long / 100),
    ];
    let calls = texts.iter().map(|text| Call::Import(text));
    tally.compare_all(engine, calls, &mut random);
    tally
}

/// Worked sheets and every beginning of them, made-up and damaged ones, with and
/// without Boolean roles in their axioms and role inclusions.
///
/// # Panics
///
/// Where engine and reference differ, or a sort of sheet is rare.
pub fn made_up_sheets(engine: &impl Translating) -> Tally {
    let mut random = Random::seeded(33);
    let mut tally = Tally::default();
    let worked: Vec<_> = worked::all().collect();
    for sheet in &worked {
        let beginnings = (0..=sheet.len()).map(|end| Call::Export(&sheet[..end]));
        tally.compare_all(engine, beginnings, &mut random);
    }
    (0..times(4_000)).for_each(|_| any_sheets(engine, &mut tally, &mut random));
    tally.assert_refused((1..=9).chain([16, 17, 20, 21]), 100);
    assert!(5 * tally.exported >= tally.sheets, "{tally}");
    tally
}

/// A sheet of each sort.
fn any_sheets(engine: &impl Translating, tally: &mut Tally, random: &mut Random) {
    let without_text = [
        with_used_role(random),
        with_inclusion(random),
        with_used_role_and_inclusion(random),
    ];
    for (sheet, place) in &without_text {
        let refusal = Refusal {
            number: 20,
            place: *place as u64,
        };
        let answer = engine.export(sheet, &mut []);
        assert_eq!(answer, Err(refusal), "{}", Hex(sheet));
    }
    let [with_role, with_inclusion, with_both] = without_text.map(|(sheet, _)| sheet);
    let sheets = [
        with_role,
        with_inclusion,
        with_both,
        made_up::sheet(random).bytes,
        few_axioms::sheet(1 + random.below(8), random),
        damage::damaged(random),
        damage::noise(random),
        with_text(random),
        with_unused_roles(random),
        of_text(random),
    ];
    let calls = sheets.iter().map(|sheet| Call::Export(sheet));
    tally.compare_all(engine, calls, random);
}

/// The sheet of a made-up text.
fn of_text(random: &mut Random) -> Vec<u8> {
    loop {
        let text = text(random);
        if let Ok(sheet) = written(&Reference, Call::Import(&text)) {
            return sheet;
        }
    }
}

/// What came of sheets that were exported and imported again, and of texts that
/// were imported and exported.
#[derive(Default)]
pub struct RoundTrips {
    pub sheets: u64,
    /// Those whose text takes more than 255 records.
    pub refused: u64,
    /// Of the others: those whose names and roles all occur in axioms.
    pub same_sets: u64,
    pub met: u64,
    pub unmet: u64,
    pub texts: u64,
}

impl fmt::Display for RoundTrips {
    fn fmt(&self, f: &mut fmt::Formatter<'_>) -> fmt::Result {
        write!(
            f,
            "{} sheets ({} met, {} unmet, {} with the same sets, {} refused 3), {} texts",
            self.sheets, self.met, self.unmet, self.same_sets, self.refused, self.texts
        )
    }
}

/// Sheets exported and imported again: the same text, verdict and, where names
/// and roles all occur, sets. Texts imported and exported: imported again the
/// same sheet.
///
/// # Panics
///
/// Where that is not so, or a sort of sheet is rare.
pub fn round_trips(engine: &(impl Translating + Judging)) -> RoundTrips {
    let mut random = Random::seeded(34);
    let mut trips = RoundTrips::default();
    for turn in 0..times(4_000) {
        let sheet = match turn % 16 {
            0 => with_shared_leaves(&mut random),
            _ => with_text(&mut random),
        };
        trips.sheet(engine, &sheet);
        let text = text(&mut random);
        trips.text(engine, &text);
    }
    assert!(trips.met >= 1_000 && trips.unmet >= 500, "{trips}");
    assert!(trips.same_sets >= 1_000 && trips.refused >= 50, "{trips}");
    assert!(trips.texts >= 1_000, "{trips}");
    trips
}

/// What a call writes into a room that is long enough for all.
fn written(engine: &impl Translating, call: Call<'_>) -> Result<Vec<u8>, Refusal> {
    let mut out = vec![0; TEXT];
    let length = call.run(engine, &mut out)?;
    out.truncate(length);
    Ok(out)
}

impl RoundTrips {
    /// A sheet that has a text.
    fn sheet(&mut self, engine: &(impl Translating + Judging), sheet: &[u8]) {
        self.sheets += 1;
        let text = written(engine, Call::Export(sheet)).expect("a sheet with a text");
        let again = match written(engine, Call::Import(&text)) {
            Ok(again) => again,
            Err(refusal) => {
                assert_eq!((refusal.number, refusal.place), (3, 0), "{}", Hex(sheet));
                self.refused += 1;
                return;
            }
        };
        let text_again = written(engine, Call::Export(&again));
        assert_eq!(text_again.as_deref(), Ok(&text[..]), "{}", Hex(sheet));
        self.verdict(engine, sheet, &again);
    }

    /// A sheet and that of its text.
    fn verdict(&mut self, engine: &impl Judging, sheet: &[u8], again: &[u8]) {
        let Some((counts, judgement, set)) = judged(engine, sheet) else {
            return;
        };
        let judged_again = judged(engine, again).expect("as many parts or fewer");
        let (counts_again, judgement_again, set_again) = judged_again;
        assert_eq!(judgement.met, judgement_again.met, "{}", Hex(sheet));
        self.met += u64::from(judgement.met);
        self.unmet += u64::from(!judgement.met);
        let names_and_roles = |counts: Counts| (counts.traits, counts.links);
        if names_and_roles(counts) == names_and_roles(counts_again) {
            assert_eq!(judgement, judgement_again, "{}", Hex(sheet));
            assert!(set == set_again, "words of {}", Hex(sheet));
            self.same_sets += 1;
        }
    }

    /// A text that may be a sheet, which then may have too many parts.
    fn text(&mut self, engine: &impl Translating, text: &[u8]) {
        let Ok(sheet) = written(engine, Call::Import(text)) else {
            return;
        };
        match written(engine, Call::Export(&sheet)) {
            Ok(text) => {
                let again = written(engine, Call::Import(&text));
                assert_eq!(again, Ok(sheet));
                self.texts += 1;
            }
            Err(refusal) => assert_eq!((refusal.number, refusal.place), (9, 0)),
        }
    }
}

/// The counts of a sheet without faults, what judging it answers, and the words;
/// none if these are many.
fn judged(engine: &impl Judging, sheet: &[u8]) -> Option<(Counts, Judgement, Vec<u64>)> {
    let counts = reference::read(sheet).expect("a sheet without faults");
    let shape = counts.shape();
    if shape.words() > WORDS {
        return None;
    }
    let mut set = vec![0; shape.words()];
    let judgement = engine.judge(sheet, &mut set).expect("a set long enough");
    Some((counts, judgement, set))
}
