//! Judging by labels against judging by sweeps over dominoes, both by plain engines.

use bench::families::Family;
use bench::plain;
use comparison::random::Random;
use comparison::suites::{report, times};
use comparison::{damage, few_axioms, made_up};
use std::collections::BTreeMap;
use std::fmt;

/// What was compared and found.
#[derive(Default)]
struct Tally {
    met: u64,
    unmet: u64,
    /// Of the unmet: those with an initial domino.
    unmet_in_steps: u64,
    /// By number.
    refused: BTreeMap<u64, u64>,
}

impl Tally {
    /// Answers and all words, those beyond the ones needed too.
    fn compare(&mut self, sheet: &[u8], words: usize, random: &mut Random) {
        let before: Vec<u64> = (0..words).map(|_| random.word()).collect();
        let (mut by_sweeps, mut by_labels) = (before.clone(), before);
        let expected = plain::judge(sheet, &mut by_sweeps);
        let judged = plain::judge_by_labels(sheet, &mut by_labels);
        assert_eq!(judged, expected, "{sheet:02X?}");
        assert!(by_labels == by_sweeps, "{sheet:02X?}");
        match expected {
            Ok(judgement) if judgement.met => self.met += 1,
            Ok(judgement) => {
                self.unmet += 1;
                self.unmet_in_steps += u64::from(judgement.opening > 0);
            }
            Err(refusal) => *self.refused.entry(refusal.number).or_default() += 1,
        }
    }
}

impl fmt::Display for Tally {
    fn fmt(&self, f: &mut fmt::Formatter<'_>) -> fmt::Result {
        write!(
            f,
            "met {}, unmet {} ({} of them in steps), refused",
            self.met, self.unmet, self.unmet_in_steps
        )?;
        for (number, count) in &self.refused {
            write!(f, " {number}: {count}")?;
        }
        Ok(())
    }
}

/// The words that a set of a sheet takes, and any for one with a fault.
fn words_needed(sheet: &[u8]) -> usize {
    reference::read(sheet).map_or(16, |counts| counts.shape().words())
}

#[test]
fn families() {
    let (mut random, mut tally) = (Random::seeded(100), Tally::default());
    for (family, _) in Family::JUDGED {
        for roles in 1..=4 {
            for parts in 1..=12 - roles {
                let sheet = family.sheet(parts, roles);
                tally.compare(sheet.bytes(), words_needed(sheet.bytes()), &mut random);
            }
        }
    }
    report("by sweeps and by labels, families", &tally);
    assert_eq!((tally.met, tally.unmet), (114, 114));
}

#[test]
fn small_sheets() {
    let (mut random, mut tally) = (Random::seeded(101), Tally::default());
    for turn in 0..times(30_000) as usize {
        let size = 1 + turn / 3 % 9;
        let sheet = match turn % 3 {
            0 => made_up::small_sheet(size, &mut random),
            _ => few_axioms::sheet(size, &mut random),
        };
        let words = words_needed(&sheet) + random.pick(&[0, 0, 1, 7]);
        tally.compare(&sheet, words, &mut random);
    }
    report("by sweeps and by labels, c + L up to 9", &tally);
    assert!(tally.met >= 5_000 && tally.unmet >= 5_000, "{tally}");
    assert!(tally.unmet_in_steps >= 1_000, "{tally}");
}

#[test]
fn damaged_sheets() {
    let (mut random, mut tally) = (Random::seeded(102), Tally::default());
    for _ in 0..times(2_000) {
        let sheet = damage::damaged(&mut random);
        let needed = words_needed(&sheet);
        if needed <= 4_096 {
            let missing = usize::from(random.one_in(4));
            tally.compare(&sheet, needed - missing, &mut random);
        }
    }
    report("by sweeps and by labels, damaged sheets", &tally);
    let faults = tally.refused.range(..10).map(|(_, count)| count);
    assert!(faults.sum::<u64>() >= 500, "{tally}");
    assert!(tally.refused[&10] >= 20, "{tally}");
}
