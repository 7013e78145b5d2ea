//! The drawing of a plant by the plain engine and by the product.

use bench::families::Family;
use bench::plain;
use bench::plants::small_sheet;
use comparison::damage;
use comparison::random::Random;
use comparison::suites::{report, times};
use lodhrussi::PlantCheck;
use std::collections::BTreeMap;
use std::fmt;

/// What was compared and found.
#[derive(Default)]
struct Tally {
    drawn: u64,
    /// Plants of more than 512 items.
    large: u64,
    with_connections: u64,
    /// By number.
    refused: BTreeMap<u64, u64>,
}

impl Tally {
    /// Answers, all words and all bytes, those beyond the ones written too, of an
    /// output of so many bytes.
    fn compare(&mut self, sheet: &[u8], words: usize, room: usize, random: &mut Random) {
        let set: Vec<u64> = (0..words).map(|_| random.word()).collect();
        let out: Vec<u8> = (0..room).map(|_| random.byte()).collect();
        let (mut by_plain, mut by_product) = ((set.clone(), out.clone()), (set, out));
        let drawn = plain::draw_plant(sheet, &mut by_plain.0, &mut by_plain.1);
        let drawn = drawn.map_err(|refusal| (refusal.number, refusal.place));
        let product = lodhrussi::draw_plant(sheet, &mut by_product.0, &mut by_product.1);
        let product = product.map_err(|refusal| (refusal.number, refusal.place));
        assert_eq!(product, drawn, "{sheet:02X?}");
        assert!(by_product == by_plain, "{sheet:02X?}");
        match drawn {
            Ok(length) => self.keep(sheet, &by_plain.0, &by_plain.1[..length]),
            Err((number, _)) => *self.refused.entry(number).or_default() += 1,
        }
    }

    /// The plain engine's check of the plant finds what was judged.
    fn keep(&mut self, sheet: &[u8], judged: &[u64], plant: &[u8]) {
        let mut checked = judged.to_vec();
        checked[..words_needed(sheet)].fill(u64::MAX);
        let found = plain::check_plant(sheet, plant, &mut checked);
        assert!(found == Ok(PlantCheck::Holds), "{sheet:02X?}");
        assert!(checked == judged, "{sheet:02X?}");
        self.drawn += 1;
        let records = plant.chunks_exact(3);
        let items = records.take_while(|record| record[0] == 0x40).count();
        self.large += u64::from(items > 512);
        self.with_connections += u64::from(3 * items < plant.len());
    }
}

impl fmt::Display for Tally {
    fn fmt(&self, f: &mut fmt::Formatter<'_>) -> fmt::Result {
        let Tally {
            drawn,
            large,
            with_connections,
            refused,
        } = self;
        write!(
            f,
            "drawn {drawn}, large {large}, with connections {with_connections}, refused"
        )?;
        for (number, count) in refused {
            write!(f, " {number}: {count}")?;
        }
        Ok(())
    }
}

/// The words that a set of a sheet takes, and any for one with a fault.
fn words_needed(sheet: &[u8]) -> usize {
    lodhrussi::read(sheet).map_or(16, lodhrussi::words_needed)
}

/// The bytes that the plant takes, and any where none is drawn.
fn length(sheet: &[u8]) -> usize {
    let mut set = vec![0; words_needed(sheet)];
    lodhrussi::drawn_plant(sheet, &mut set).map_or(99, |plant| plant.len())
}

#[test]
fn plants_of_small_sheets() {
    let (mut random, mut tally) = (Random::seeded(97), Tally::default());
    for turn in 0..times(6_000) {
        let sheet = small_sheet(turn, &mut random);
        let words = words_needed(&sheet) + random.below(3);
        let room = length(&sheet) + random.below(4) - random.pick(&[0, 0, 0, 1, 2]);
        tally.compare(&sheet, words, room, &mut random);
    }
    report("plain and product, drawn plants", &tally);
    assert!(
        tally.drawn >= 1_000 && tally.large >= 100 && tally.with_connections >= 1_000,
        "{tally}"
    );
    for number in [21, 26, 27] {
        assert!(
            tally.refused[&number] >= 100,
            "refusal {number} is rare: {tally}"
        );
    }
}

#[test]
fn plants_of_families() {
    let (mut random, mut tally) = (Random::seeded(98), Tally::default());
    for family in Family::ALL {
        for parts in 1..=8 {
            for roles in 1..=4 {
                let sheet = family.sheet(parts, roles);
                let (words, room) = (words_needed(sheet.bytes()), length(sheet.bytes()));
                tally.compare(sheet.bytes(), words, room, &mut random);
            }
        }
    }
    report("plain and product, plants of families", &tally);
    assert!(tally.drawn >= 20, "{tally}");
}

#[test]
fn plants_of_damaged_sheets() {
    let (mut random, mut tally) = (Random::seeded(99), Tally::default());
    for _ in 0..times(2_000) {
        let sheet = damage::damaged(&mut random);
        let needed = words_needed(&sheet);
        if needed <= 4_096 {
            let missing = usize::from(random.one_in(4));
            tally.compare(&sheet, needed - missing, 10_000, &mut random);
        }
    }
    report("plain and product, plants of damaged sheets", &tally);
    let faults = tally.refused.range(..10).map(|(_, count)| count);
    assert!(faults.sum::<u64>() >= 500, "{tally}");
    assert!(tally.refused[&10] >= 20, "{tally}");
}
