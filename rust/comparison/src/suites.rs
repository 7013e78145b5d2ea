//! The comparisons of one engine with the reference, by seed.

use crate::counting::{counts, COUNTED};
use crate::dominoes::{Answer, Call, Tally};
use crate::hex::Hex;
use crate::random::Random;
use crate::worked::Before;
use crate::{claims, damage, few_axioms, made_up, reading, sequences, worked, Judging, Reading};
use reference::domino::remove;
use reference::{Refusal, Strike, Verdict};
use std::io::{self, Write};
use std::{env, fmt};

/// Names a number that all counts of sheets are multiplied by.
const FACTOR_VARIABLE: &str = "LODHRUSSI_FACTOR";

/// So many, or a multiple.
#[must_use]
pub fn times(count: u64) -> u64 {
    let factor = env::var(FACTOR_VARIABLE).ok();
    count * factor.and_then(|text| text.parse().ok()).unwrap_or(1)
}

/// Prints even where the test harness keeps output back.
///
/// # Panics
///
/// If standard output is closed.
pub fn report(name: &str, tally: &impl fmt::Display) {
    writeln!(io::stdout(), "{name}: {tally}").expect("standard output takes the report");
}

/// The counts of fixed sheets, without the reference.
///
/// # Panics
///
/// Where the engine answers otherwise.
pub fn worked_counts(engine: &impl Reading) {
    let judged = worked::JUDGED.map(|(hex, numbers, ..)| (hex, numbers));
    for (hex, numbers) in judged.into_iter().chain(COUNTED) {
        let counted = engine.read(&worked::from_hex(hex));
        assert_eq!(counted, Ok(counts(numbers)), "{hex}");
    }
}

/// Document 01's sheets, those with fixed counts, and their beginnings.
pub fn worked_reading(engine: &impl Reading) -> reading::Tally {
    let mut random = Random::seeded(1);
    let mut tally = reading::Tally::default();
    let counted = COUNTED.map(|(hex, _)| worked::from_hex(hex));
    for sheet in worked::all().chain(counted) {
        for end in 0..=sheet.len() {
            tally.compare(engine, &sheet[..end], &mut random);
        }
    }
    tally
}

/// Made-up sheets, damaged ones, and random bytes.
pub fn made_up_reading(engine: &impl Reading) -> reading::Tally {
    let mut random = Random::seeded(2);
    let mut tally = reading::Tally::default();
    for _ in 0..times(30_000) {
        tally.compare(engine, &made_up::sheet(&mut random).bytes, &mut random);
    }
    for _ in 0..times(30_000) {
        tally.compare(engine, &damage::damaged(&mut random), &mut random);
    }
    for _ in 0..times(10_000) {
        tally.compare(engine, &damage::noise(&mut random), &mut random);
    }
    tally
}

/// Made-up sheets that make claims again and again.
///
/// # Panics
///
/// Where engine and reference differ, parts are seldom shared, or a sort of counts
/// is rare.
pub fn repeating_reading(engine: &impl Reading) -> reading::Tally {
    let mut random = Random::seeded(9);
    let mut tally = reading::Tally::default();
    for _ in 0..times(45_000) {
        let sheet = made_up::repeating_sheet(&mut random).bytes;
        tally.compare(engine, &sheet, &mut random);
    }
    assert!(tally.sharing.shared >= 20_000, "{tally}");
    assert!(tally.sharing.refused_apart >= 5_000, "{tally}");
    let counts = tally.counts;
    assert!(counts.with.iter().all(|&with| with >= 6_000), "{tally}");
    assert!(counts.with_each >= 3_800, "{tally}");
    assert!(counts.all_differ >= 1_800, "{tally}");
    assert!(counts.some_not_only >= 11_000, "{tally}");
    tally
}

/// Document 01's sheets and their beginnings.
///
/// # Panics
///
/// Where engine and reference differ.
pub fn worked_dominoes(engine: &impl Judging) -> Tally {
    let mut random = Random::seeded(4);
    let mut tally = Tally::default();
    for sheet in worked::all() {
        for end in 0..=sheet.len() {
            tally.compare(engine, &sheet[..end], &mut random);
        }
    }
    let twelve = worked::from_hex(worked::TWELVE);
    for words in [0, 1, 4_096, 262_143] {
        for call in [Call::Open, Call::Strike(0), Call::Settle, Call::Judge] {
            let refusal = tally.call(engine, call, &twelve, &mut vec![7; words]);
            assert_eq!(refusal.unwrap_err().number, 10);
        }
    }
    tally
}

/// The numbers that document 01 gives, without the reference.
///
/// # Panics
///
/// Where the engine answers otherwise.
pub fn worked_numbers(engine: &impl Judging) {
    for (hex, _, opening, survivors, met) in worked::JUDGED {
        let sheet = worked::from_hex(hex);
        let mut set = [7; 8];
        assert_eq!(engine.open(&sheet, &mut set), Ok(opening), "{hex}");
        assert_eq!(engine.settle(&sheet, &mut set), Ok(survivors), "{hex}");
        let judgement = engine.judge(&sheet, &mut set).map(Answer::Judged);
        let expected = reference::Judgement {
            opening,
            survivors,
            met,
        };
        assert_eq!(judgement, Ok(Answer::Judged(expected)), "{hex}");
    }
    for ((hex, ..), (opened, settled)) in worked::JUDGED.into_iter().zip(worked::WORDS) {
        worked_words(engine, &worked::from_hex(hex), opened, settled);
    }
    for (hex, before, number, verdict) in worked::STRUCK {
        worked_strike(
            engine,
            &worked::from_hex(hex),
            before,
            Strike { number, verdict },
        );
    }
    strikes_in_a_row(engine);
    let twelve = worked::from_hex(worked::TWELVE);
    let mut set = vec![7; 262_144];
    let judgement = engine.judge(&twelve, &mut set);
    assert_eq!(judgement.map(|judgement| judgement.survivors), Ok(1 << 24));
    assert!(set.iter().all(|&word| word == u64::MAX));
    for (hex, number, place) in worked::REFUSED.into_iter().chain([(worked::TWELVE, 10, 0)]) {
        let mut set = [7; 8];
        let refusal = Refusal { number, place };
        let sheet = worked::from_hex(hex);
        assert_eq!(engine.open(&sheet, &mut set), Err(refusal), "{hex}");
        assert_eq!(engine.strike(&sheet, &mut set, 0), Err(refusal), "{hex}");
        assert_eq!(engine.settle(&sheet, &mut set), Err(refusal), "{hex}");
        assert_eq!(engine.judge(&sheet, &mut set), Err(refusal), "{hex}");
        assert_eq!(set, [7; 8]);
    }
}

/// The words that open, settle and judge leave, and that those beyond stay.
fn worked_words(engine: &impl Judging, sheet: &[u8], opened: &[u64], settled: &[u64]) {
    let leaves = |words: &[u64], before: [u64; 8]| [words, &before[words.len()..]].concat();
    let before = [0x5555_5555_5555_5555; 8];
    let mut set = before;
    engine.open(sheet, &mut set).expect("a worked sheet");
    assert_eq!(set[..], leaves(opened, before), "{}", Hex(sheet));
    engine.settle(sheet, &mut set).expect("a worked sheet");
    assert_eq!(set[..], leaves(settled, before), "{}", Hex(sheet));
    let before = [u64::MAX; 8];
    let mut set = before;
    engine.judge(sheet, &mut set).expect("a worked sheet");
    assert_eq!(set[..], leaves(settled, before), "{}", Hex(sheet));
}

/// Document 01's four strikes on S1, on one set.
fn strikes_in_a_row(engine: &impl Judging) {
    let sheet = worked::from_hex(worked::S1);
    let mut set = [7; 4];
    assert_eq!(engine.open(&sheet, &mut set), Ok(32));
    for (_, _, number, verdict) in worked::STRUCK.into_iter().take(3) {
        let strike = engine.strike(&sheet, &mut set, number);
        assert_eq!(strike, Ok(Strike { number, verdict }));
    }
    let refusal = Refusal {
        number: 11,
        place: 0,
    };
    assert_eq!(engine.strike(&sheet, &mut set, 64), Err(refusal));
    assert_eq!(set, [0xffff_fffe_0000_0000, 7, 7, 7]);
}

/// One strike: its verdict, and that it takes out that domino alone.
fn worked_strike(engine: &impl Judging, sheet: &[u8], before: Before, strike: Strike) {
    let mut set = [u64::MAX; 8];
    if let Before::Opened = before {
        engine.open(sheet, &mut set).expect("a worked sheet");
    }
    let mut after = set;
    if let Verdict::Struck { .. } = strike.verdict {
        remove(&mut after, strike.number);
    }
    assert_eq!(engine.strike(sheet, &mut set, strike.number), Ok(strike));
    assert_eq!(set, after, "{strike:?}");
}

/// The parts of sheets whose restrictions are written alike, or nearly so,
/// without the reference.
///
/// # Panics
///
/// Where the engine answers otherwise.
pub fn listed_claims(engine: &impl Reading) {
    for &(what, hex, numbers, marks, _) in claims::LISTED {
        let sheet = worked::from_hex(hex);
        assert_eq!(engine.read(&sheet), Ok(counts(numbers)), "{what}");
        let marks = marks.as_flattened();
        let mut list = vec![9; marks.len() + 4];
        assert_eq!(engine.list_marks(&sheet, &mut list), Ok(()), "{what}");
        assert_eq!(list, [marks, &[9; 4]].concat(), "{what}");
        let mut short = vec![9; marks.len() - 1];
        let refusal = engine.list_marks(&sheet, &mut short).unwrap_err();
        assert_eq!((refusal.number, refusal.place), (12, 0), "{what}");
        assert!(short.iter().all(|&byte| byte == 9), "{what}");
    }
    for row in claims::judged() {
        assert_eq!(engine.read(&row.sheet), Ok(row.counts), "{}", row.what);
    }
}

/// The numbers of sheets that make one claim often, without the reference: sets
/// and domino numbers go by the smaller count.
///
/// # Panics
///
/// Where the engine answers otherwise.
pub fn judged_claims(engine: &impl Judging) {
    for row in claims::judged() {
        let (sheet, what) = (&row.sheet, row.what);
        let size = row.counts.marks() + row.counts.links;
        let dominoes = 4_u64.pow(size as u32);
        let mut set = vec![7; dominoes.div_ceil(64) as usize];
        let mut short = vec![7; set.len() - 1];
        let refusal = engine.judge(sheet, &mut short).unwrap_err();
        assert_eq!((refusal.number, refusal.place), (10, 0), "{what}");
        let opening = engine.open(sheet, &mut set);
        assert_eq!(opening, Ok(row.judgement.opening), "{what}");
        let refusal = engine.strike(sheet, &mut set, dominoes).unwrap_err();
        assert_eq!((refusal.number, refusal.place), (11, 0), "{what}");
        let last = engine.strike(sheet, &mut set, dominoes - 1);
        assert_eq!(last.map(|strike| strike.number), Ok(dominoes - 1), "{what}");
        let survivors = engine.settle(sheet, &mut set);
        assert_eq!(survivors, Ok(row.judgement.survivors), "{what}");
        let judgement = engine.judge(sheet, &mut set);
        assert_eq!(judgement, Ok(row.judgement), "{what}");
    }
}

/// Made-up sheets whose parts and roles come to at most 7.
///
/// # Panics
///
/// Where engine and reference differ.
pub fn small_dominoes(engine: &impl Judging) -> Tally {
    let mut random = Random::seeded(5);
    let mut tally = Tally::default();
    for turn in 0..times(24_000) {
        let size = 1 + turn as usize % 7;
        let sheet = match turn % 4 {
            0 | 1 => made_up::small_sheet(size, &mut random),
            2 => few_axioms::sheet(size, &mut random),
            _ => few_axioms::unmet_sheet(size, &mut random),
        };
        tally.compare(engine, &sheet, &mut random);
    }
    assert!(4 * tally.unmet >= tally.sheets && 10 * tally.unmet_in_steps >= tally.sheets);
    assert!(6 * tally.sharing.shared >= tally.sheets, "{tally}");
    assert!(3 * tally.inclusions.with >= tally.sheets, "{tally}");
    assert!(3 * tally.inclusions.without >= tally.sheets, "{tally}");
    assert!(tally.struck[1..].iter().all(|&count| count >= 500));
    for (told, later, count) in tally.pairs() {
        let with_7 = told == 7 || later == 7;
        let often = if with_7 { 100 } else { 20 };
        assert!(count >= often, "{told} told, {later} too: {tally}");
    }
    tally
}

/// Made-up sheets whose parts and roles come to 8 or 9.
///
/// # Panics
///
/// Where engine and reference differ.
pub fn large_dominoes(engine: &impl Judging) -> Tally {
    let mut random = Random::seeded(6);
    let mut tally = Tally::default();
    for turn in 0..times(400) {
        let size = 8 + turn as usize / 4 % 2;
        let sheet = match turn % 4 {
            0 | 1 => few_axioms::sheet(size, &mut random),
            2 => few_axioms::unmet_sheet(size, &mut random),
            _ => made_up::small_sheet(9, &mut random),
        };
        tally.compare(engine, &sheet, &mut random);
    }
    tally
}

/// Damaged sheets and random bytes.
pub fn damaged_dominoes(engine: &impl Judging) -> Tally {
    let mut random = Random::seeded(7);
    let mut tally = Tally::default();
    for _ in 0..times(20_000) {
        compare_unless_large(
            &mut tally,
            engine,
            &damage::damaged(&mut random),
            &mut random,
        );
    }
    for _ in 0..times(10_000) {
        compare_unless_large(&mut tally, engine, &damage::noise(&mut random), &mut random);
    }
    for number in (1..=11).chain([16, 17]) {
        assert!(tally.refused[number] >= 100, "refusal {number} is rare");
    }
    assert!(tally.inclusions.on_empty >= 100, "{tally}");
    assert!(tally.inclusions.named >= 100, "{tally}");
    tally
}

/// Leaves out sheets whose sets take long to go through.
fn compare_unless_large(
    tally: &mut Tally,
    engine: &impl Judging,
    sheet: &[u8],
    random: &mut Random,
) {
    if !reference::read(sheet).is_ok_and(|counts| counts.marks() + counts.links > 5) {
        tally.compare(engine, sheet, random);
    }
}

/// Lists of strikes and settlings, on document 01's and on made-up sheets.
pub fn listed_calls(engine: &impl Judging) -> Tally {
    let mut random = Random::seeded(8);
    let mut tally = Tally::default();
    for (hex, ..) in worked::JUDGED {
        let sheet = worked::from_hex(hex);
        for _ in 0..20 {
            sequences::compare(&mut tally, engine, &sheet, 256, &mut random);
        }
    }
    for turn in 0..times(2_000) {
        let size = 2 + turn as usize / 4 % 5;
        let sheet = match turn % 4 {
            0 => made_up::small_sheet(size, &mut random),
            1 => few_axioms::unmet_sheet(size, &mut random),
            _ => few_axioms::sheet(size, &mut random),
        };
        let passes = if size <= 3 { 64 } else { 20 };
        sequences::compare(&mut tally, engine, &sheet, passes, &mut random);
    }
    // What was opened meets the conditions 1 to 3 and 7 for good.
    assert_eq!((&tally.struck[..4], tally.struck[7]), (&[0; 4][..], 0));
    assert!(tally.struck[4..7].iter().all(|&count| count >= 500));
    tally
}
