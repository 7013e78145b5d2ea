//! The comparisons of one engine with the reference, on plants that are drawn.

use super::sheets::{few_labels, four_roles, sheet};
use super::worked::{M341, M341_BYTES, M342, OUTCOMES, PLANTS};
use super::{Expected, Tally, MOST};
use crate::hex::from_hex;
use crate::random::Random;
use crate::suites::times;
use crate::worked::TWELVE;
use crate::{damage, Checking, Judging, Planting};

/// What parts and roles come to at most.
const SMALL: usize = 7;

/// Plants of so many bytes or fewer, with sets of so many words or fewer, are drawn
/// into an output of each length.
const SHORT: usize = 700;
const FEW_WORDS: usize = 64;

/// Sheets whose plants, lengths of plants or refusals are known.
///
/// # Panics
///
/// Where the engine or the reference answers otherwise.
pub fn fixed(engine: &(impl Planting + Checking + Judging)) -> Tally {
    let mut random = Random::seeded(80);
    let mut tally = Tally::default();
    for (hex, outcome) in OUTCOMES {
        let expected = Expected::of(from_hex(hex));
        assert_eq!(expected.outcome(), outcome, "{hex}");
        tally.compare_all(engine, &expected, &mut random);
    }
    for (hex, layer, connections) in PLANTS {
        let expected = Expected::of(from_hex(hex));
        let plant = [from_hex(layer).repeat(3), from_hex(connections)].concat();
        assert_eq!(expected.plant.as_ref(), Ok(&plant), "{hex}");
        tally.compare_all(engine, &expected, &mut random);
    }
    tally.assert_none_differs();
    tally
}

/// Sheets of which as many dominoes are left as are drawn, and one more.
///
/// # Panics
///
/// Where the engine or the reference answers otherwise.
pub fn limits(engine: &(impl Planting + Checking + Judging)) -> Tally {
    let mut random = Random::seeded(81);
    let mut tally = Tally::default();
    for (hex, survivors, outcome) in [(M341, MOST, Ok(M341_BYTES)), (M342, MOST + 1, Err(27))] {
        let expected = Expected::of(from_hex(hex));
        assert_eq!(
            (expected.survivors(), expected.outcome()),
            (survivors, outcome)
        );
        tally.compare_all(engine, &expected, &mut random);
    }
    tally.assert_none_differs();
    tally
}

/// Fixed sheets with an output of each length up to some more than needed.
///
/// # Panics
///
/// Where engine and reference differ.
pub fn each_length(engine: &impl Planting) -> Tally {
    let mut random = Random::seeded(82);
    let mut tally = Tally::default();
    let is_short = |outcome: Result<usize, u64>| outcome.is_ok_and(|length| length <= SHORT);
    let known = OUTCOMES.into_iter();
    let short = known.filter(|(_, outcome)| is_short(*outcome));
    let hexes = short.map(|(hex, _)| hex);
    let sheets = hexes.chain(PLANTS.map(|(hex, ..)| hex)).map(from_hex);
    let has_few_words = |expected: &Expected| expected.judged.len() <= FEW_WORDS;
    for expected in sheets.map(Expected::of).filter(has_few_words) {
        tally.count(&expected);
        for room in 0..=expected.needed() + 4 {
            tally.draw(engine, &expected, room, &mut random);
        }
    }
    tally.assert_none_differs();
    tally
}

/// Made-up sheets whose parts and roles come to at most 7.
///
/// # Panics
///
/// Where engine and reference differ, or a sort of plant or a refusal is rare.
pub fn made_up_sheets(engine: &(impl Planting + Checking + Judging)) -> Tally {
    let mut random = Random::seeded(83);
    let mut tally = Tally::default();
    for turn in 0..times(3_000) as usize {
        let expected = Expected::of(sheet(turn % (SMALL + 1), &mut random));
        tally.compare_all(engine, &expected, &mut random);
    }
    tally.assert_none_differs();
    let plants = &tally.plants;
    assert!(plants.joined >= 800, "{tally}");
    assert!(plants.without_roles >= 240, "{tally}");
    assert!(plants.inclusions >= 690, "{tally}");
    assert!(plants.restrictions >= 420, "{tally}");
    assert!(plants.fresh >= 110, "{tally}");
    assert!(plants.many >= 110, "{tally}");
    assert!(tally.exact >= 1_150 && tally.longer >= 1_150, "{tally}");
    assert!(
        tally.short_by_one >= 1_150 && tally.empty >= 1_150,
        "{tally}"
    );
    for (number, often) in [(10, 1_500), (21, 4_000), (26, 500), (27, 160)] {
        assert!(tally.refused[number] >= often, "{number} is rare: {tally}");
    }
    tally
}

/// Made-up sheets with four roles.
///
/// # Panics
///
/// Where engine and reference differ, or a sort of plant is rare.
pub fn sheets_of_four_roles(engine: &(impl Planting + Checking + Judging)) -> Tally {
    let mut random = Random::seeded(84);
    let mut tally = Tally::default();
    for _ in 0..times(120) {
        let expected = Expected::of(four_roles(&mut random));
        tally.compare_all(engine, &expected, &mut random);
    }
    tally.assert_none_differs();
    let plants = &tally.plants;
    assert!(plants.four_roles >= 45, "{tally}");
    assert!(
        plants.inclusions >= 40 && plants.restrictions >= 30,
        "{tally}"
    );
    assert!(plants.many >= 15, "{tally}");
    tally
}

/// Made-up sheets of 9 to 11 parts and roles, and of few labels.
///
/// # Panics
///
/// Where engine and reference differ, or a sort of plant is rare.
pub fn sheets_of_few_labels(engine: &(impl Planting + Checking + Judging)) -> Tally {
    let mut random = Random::seeded(85);
    let mut tally = Tally::default();
    for turn in 0..times(48) as usize {
        let expected = Expected::of(few_labels(9 + turn % 3, &mut random));
        tally.compare_all(engine, &expected, &mut random);
    }
    tally.assert_none_differs();
    let plants = &tally.plants;
    assert!(plants.wide >= 15 && plants.fresh >= 12, "{tally}");
    assert!(plants.joined >= 12 && plants.without_roles >= 10, "{tally}");
    tally
}

/// Damaged sheets and random bytes, with any sets and outputs.
///
/// # Panics
///
/// Where engine and reference differ, or a refusal is rare.
pub fn faulty_sheets(engine: &impl Planting) -> Tally {
    let mut random = Random::seeded(86);
    let mut tally = Tally::default();
    for turn in 0..times(24_000) {
        let sheet = match turn % 3 {
            0 => damage::noise(&mut random),
            _ => damage::damaged(&mut random),
        };
        if reference::read(&sheet).is_err() {
            tally.sheets += 1;
            let words = random.below(6);
            tally.refuse(engine, &sheet, words, &mut random);
        }
    }
    tally.assert_none_differs();
    for number in (1..=9).chain([16, 17]) {
        assert!(tally.refused[number] >= 350, "{number} is rare: {tally}");
    }
    tally
}

/// A few sheets of each sort: fixed, made up, of names past the eighth part, and with
/// faults.
pub struct Few {
    accepted: Vec<Expected>,
    limits: [Expected; 2],
    faulty: Vec<Vec<u8>>,
}

impl Few {
    /// Only of at most so many dominoes, or of too many to be drawn.
    const DRAWN: u64 = 64;

    #[must_use]
    pub fn of_each() -> Self {
        let mut random = Random::seeded(87);
        let fixed = OUTCOMES.map(|(hex, _)| hex).into_iter();
        let fixed = fixed.filter(|hex| *hex != TWELVE).map(from_hex);
        let mut accepted: Vec<_> = fixed.map(Expected::of).collect();
        let mut add = |sheet| accepted.push(Expected::of(sheet));
        (0..times(120) as usize).for_each(|turn| add(sheet(turn % 5, &mut random)));
        (0..times(8)).for_each(|_| add(few_labels(9, &mut random)));
        accepted.retain(|expected| {
            let survivors = expected.survivors();
            survivors <= Self::DRAWN || survivors > MOST
        });
        let faulty = (0..times(60)).map(|_| damage::noise(&mut random));
        Few {
            accepted,
            limits: [M341, M342].map(|hex| Expected::of(from_hex(hex))),
            faulty: faulty
                .filter(|sheet| reference::read(sheet).is_err())
                .collect(),
        }
    }

    /// Compares an engine with the reference, and counts where they differ.
    pub fn compare(&self, engine: &(impl Planting + Checking + Judging)) -> Tally {
        let mut random = Random::seeded(88);
        let mut tally = Tally::default();
        for expected in &self.accepted {
            tally.compare_all(engine, expected, &mut random);
        }
        for expected in &self.limits {
            tally.draw(engine, expected, M341_BYTES, &mut random);
        }
        for sheet in &self.faulty {
            let words = random.below(3);
            tally.refuse(engine, sheet, words, &mut random);
        }
        tally
    }
}
