//! The check of a plant by the plain engine and by the product.

use bench::families::Family;
use bench::plain;
use bench::plants::{names, small_sheet, Plant};
use comparison::random::Random;
use comparison::suites::{report, times};
use comparison::REFUSALS;
use lodhrussi::PlantCheck;
use std::fmt;

/// What was compared and found.
#[derive(Default)]
struct Tally {
    holds: u64,
    items: u64,
    pairs: u64,
    /// What breaks first stands behind the first block of rows.
    late: u64,
    refused: [u64; REFUSALS],
}

impl Tally {
    /// Answers and all words, those beyond the ones needed too.
    fn compare(&mut self, sheet: &[u8], plant: &[u8], words: usize, random: &mut Random) {
        let before: Vec<u64> = (0..words).map(|_| random.word()).collect();
        let (mut by_plain, mut by_product) = (before.clone(), before.clone());
        let found = plain::check_plant(sheet, plant, &mut by_plain);
        let found = found.map_err(|refusal| (refusal.number, refusal.place));
        let product = lodhrussi::check_plant(sheet, plant, &mut by_product);
        let product = product.map_err(|refusal| (refusal.number, refusal.place));
        assert_eq!(product, found, "{sheet:02X?} {plant:02X?}");
        assert_eq!(by_product, by_plain, "{sheet:02X?} {plant:02X?}");
        let late = |first| u64::from(first >= 128);
        self.late += match found {
            Ok(PlantCheck::Item(first) | PlantCheck::Pair(first, _)) => late(first),
            _ => 0,
        };
        let count = match found {
            Ok(PlantCheck::Holds) => &mut self.holds,
            Ok(PlantCheck::Item(_)) => &mut self.items,
            Ok(PlantCheck::Pair(..)) => &mut self.pairs,
            Err((number, _)) => {
                assert_eq!(by_plain, before, "{sheet:02X?} {plant:02X?}");
                &mut self.refused[number as usize]
            }
        };
        *count += 1;
    }
}

impl fmt::Display for Tally {
    fn fmt(&self, f: &mut fmt::Formatter<'_>) -> fmt::Result {
        let Tally {
            holds,
            items,
            pairs,
            late,
            refused,
        } = self;
        write!(
            f,
            "holds {holds}, item {items}, pair {pairs}, late {late}, refused"
        )?;
        for (number, count) in refused.iter().enumerate().filter(|(_, count)| **count > 0) {
            write!(f, " {number}: {count}")?;
        }
        Ok(())
    }
}

/// The words that a set of a sheet without faults takes.
fn words_needed(sheet: &[u8]) -> usize {
    let counts = lodhrussi::read(sheet).expect("a sheet without faults");
    lodhrussi::words_needed(counts)
}

/// The roles of a sheet without faults.
fn roles(sheet: &[u8]) -> u8 {
    let counts = lodhrussi::read(sheet).expect("a sheet without faults");
    counts.links as u8
}

/// Items and connections of a sheet in turns.
fn plant(sheet: &[u8], items: u16, random: &mut Random) -> Plant {
    let (names, roles) = (names(sheet), roles(sheet));
    let mut plant = Plant::default();
    let connections = random.below(3);
    for items in 1..=items {
        plant.random_items(1, names, random);
        if roles > 0 {
            plant.random_connections(connections, items, roles, random);
        }
    }
    plant
}

#[test]
fn small_plants() {
    let (mut random, mut tally) = (Random::seeded(93), Tally::default());
    for turn in 0..times(20_000) {
        let sheet = small_sheet(turn, &mut random);
        let items = 1 + random.below(5) as u16;
        let plant = plant(&sheet, items, &mut random);
        let words = words_needed(&sheet) + random.below(3);
        tally.compare(&sheet, plant.bytes(), words, &mut random);
    }
    report("plain and product, small plants", &tally);
    assert!(
        tally.holds >= 1_000 && tally.items >= 1_000 && tally.pairs >= 500,
        "{tally}"
    );
}

/// Numbers of items around those of one block and of several.
const MANY: [u16; 9] = [127, 128, 129, 255, 256, 257, 640, 1_023, 1_024];

#[test]
fn plants_of_several_blocks() {
    let (mut random, mut tally) = (Random::seeded(94), Tally::default());
    for family in Family::ALL {
        for (parts, roles) in [(2, 1), (5, 1), (5, 4)] {
            let sheet = family.sheet(parts, roles);
            for items in MANY {
                let plant = plant(sheet.bytes(), items, &mut random);
                let words = words_needed(sheet.bytes());
                tally.compare(sheet.bytes(), plant.bytes(), words, &mut random);
            }
        }
    }
    report("plain and product, many items", &tally);
    assert!(tally.items >= 100, "{tally}");
}

/// Items of which at most one has names, and a few connections, so that the first
/// breach may be anywhere.
fn nearly_bare(sheet: &[u8], items: u16, connections: usize, random: &mut Random) -> Plant {
    let mut plant = Plant::default();
    let named = random.below(3 * usize::from(items));
    for item in 0..usize::from(items) {
        plant.item(if item == named { names(sheet) } else { 0 });
    }
    plant.random_connections(connections, items, roles(sheet), random);
    plant
}

#[test]
fn plants_that_break_late() {
    let (mut random, mut tally) = (Random::seeded(96), Tally::default());
    for family in [Family::Met, Family::MetWithInclusions] {
        for turn in 0..times(300) as usize {
            let (parts, roles) = random.pick(&[(2, 1), (5, 1), (5, 4)]);
            let sheet = family.sheet(parts, roles);
            let items = MANY[turn % MANY.len()];
            let plant = nearly_bare(sheet.bytes(), items, turn % 4, &mut random);
            let words = words_needed(sheet.bytes());
            tally.compare(sheet.bytes(), plant.bytes(), words, &mut random);
        }
    }
    report("plain and product, late breaches", &tally);
    for count in [tally.holds, tally.items, tally.pairs, tally.late] {
        assert!(count >= 100, "{tally}");
    }
}

/// A plant with one or two bytes changed or put in, or cut off there.
fn damaged(plant: &Plant, random: &mut Random) -> Vec<u8> {
    let mut bytes = plant.bytes().to_vec();
    for _ in 0..=random.below(2) {
        let at = random.below(bytes.len() + 1);
        let byte = match random.below(4) {
            0 => random.byte(),
            1 => random.byte_below(4),
            _ => random.pick(&[0x40, 0x41]),
        };
        match (random.below(3), bytes.get_mut(at)) {
            (0, _) => bytes.truncate(at),
            (1, Some(there)) => *there = byte,
            _ => bytes.insert(at, byte),
        }
    }
    bytes
}

#[test]
fn damaged_plants() {
    let (mut random, mut tally) = (Random::seeded(95), Tally::default());
    for turn in 0..times(20_000) {
        let sheet = small_sheet(turn, &mut random);
        let items = random.below(4) as u16;
        let plant = damaged(&plant(&sheet, items, &mut random), &mut random);
        let missing = usize::from(random.one_in(20));
        let words = words_needed(&sheet) - missing;
        tally.compare(&sheet, &plant, words, &mut random);
    }
    for turn in 0..times(200) {
        let sheet = small_sheet(turn, &mut random);
        let mut full = Plant::default();
        full.random_items(1_024, names(&sheet), &mut random);
        let last = random.pick(&[&[0x40, 0, 0][..], &[0x40, 0, 0x80], &[0x40, 0], &[0x41; 6]]);
        let plant = [full.bytes(), last].concat();
        tally.compare(&sheet, &plant, words_needed(&sheet), &mut random);
    }
    report("plain and product, damaged plants", &tally);
    for number in [10, 22, 24, 25] {
        assert!(
            tally.refused[number] >= 500,
            "refusal {number} is rare: {tally}"
        );
    }
    assert!(tally.refused[23] >= 50, "{tally}");
}
