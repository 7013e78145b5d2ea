//! Role inclusions against axioms in their place.

use super::{spelt_out, without, SpeltOut};
use crate::hex::Hex;
use crate::random::Random;
use crate::suites::times;
use crate::{few_axioms, made_up, worked, Judging};
use reference::domino::{has, insert, Domino, Shape};
use reference::{list_marks, read, Judgement};
use std::fmt;

/// What parts and roles come to at most, with axioms in place of inclusions.
const MOST: usize = 8;

/// A judged sheet.
struct Judged {
    shape: Shape,
    judgement: Judgement,
    set: Vec<u64>,
}

impl Judged {
    /// Judges a sheet without faults; none if it has more parts and roles.
    fn of(engine: &impl Judging, sheet: &[u8]) -> Option<Self> {
        let counts = read(sheet).ok()?;
        let shape = counts.shape();
        if shape.parts + shape.roles > MOST {
            return None;
        }
        let mut set = vec![0; shape.words()];
        let judgement = engine.judge(sheet, &mut set).expect("a set long enough");
        Some(Judged {
            shape,
            judgement,
            set,
        })
    }

    /// The set without some parts, which each domino has on both sides.
    fn without_parts(&self, parts: &[usize]) -> Vec<u64> {
        let shape = Shape {
            parts: self.shape.parts - parts.len(),
            ..self.shape
        };
        let kept: Vec<usize> = (0..self.shape.parts)
            .filter(|part| !parts.contains(part))
            .collect();
        let label = |label: u64| {
            assert!(parts.iter().all(|part| label >> part & 1 == 1));
            let bits = kept.iter().enumerate();
            bits.fold(0, |set, (to, from)| set | (label >> from & 1) << to)
        };
        let mut projected = vec![0; shape.words()];
        let numbers = 0..self.shape.dominoes();
        for number in numbers.filter(|&number| has(&self.set, number)) {
            let Domino { left, roles, right } = self.shape.domino(number);
            let (left, right) = (label(left), label(right));
            insert(&mut projected, shape.number(Domino { left, roles, right }));
        }
        projected
    }
}

/// How many sheets were judged three ways, and what came of them.
#[derive(Default)]
pub struct Tally {
    pub sheets: u64,
    pub comparisons: u64,
    pub met: u64,
    pub unmet: u64,
    /// Of the unmet: those with an initial domino.
    pub unmet_in_steps: u64,
    /// Of the unmet: those that are met without their inclusions.
    pub unmet_by_inclusions: u64,
    /// Those with a larger initial set without their inclusions.
    pub fewer_initial: u64,
}

impl Tally {
    /// Judges a sheet with role inclusions as it is, with axioms in their place,
    /// and without them. The first two have the same survivors, but for the
    /// parts that the axioms add; the last has these and perhaps more.
    fn compare(&mut self, engine: &impl Judging, sheet: &[u8]) {
        let Some(spelt) = spelt_out(sheet) else {
            return;
        };
        let Some(by_axioms) = Judged::of(engine, &spelt.sheet) else {
            return;
        };
        let what = format!("{}", Hex(sheet));
        let as_it_is = Judged::of(engine, sheet).expect(&what);
        let without = Judged::of(engine, &without(sheet)).expect(&what);
        let parts = added_parts(&spelt, by_axioms.shape);
        if by_axioms.shape.parts != as_it_is.shape.parts + parts.len() {
            // the sheet makes such a claim itself
            return;
        }
        assert_eq!(by_axioms.judgement.met, as_it_is.judgement.met, "{what}");
        let survivors = by_axioms.judgement.survivors;
        assert_eq!(survivors, as_it_is.judgement.survivors, "{what}");
        assert_eq!(by_axioms.without_parts(&parts), as_it_is.set, "{what}");
        let mut words = as_it_is.set.iter().zip(&without.set);
        assert!(words.all(|(less, more)| less & !more == 0), "{what}");
        self.count(as_it_is.judgement, without.judgement);
    }

    fn count(&mut self, judgement: Judgement, without: Judgement) {
        self.sheets += 1;
        self.comparisons += 4;
        self.met += u64::from(judgement.met);
        self.unmet += u64::from(!judgement.met);
        self.unmet_in_steps += u64::from(!judgement.met && judgement.opening > 0);
        self.unmet_by_inclusions += u64::from(!judgement.met && without.met);
        self.fewer_initial += u64::from(judgement.opening < without.opening);
    }
}

impl fmt::Display for Tally {
    fn fmt(&self, f: &mut fmt::Formatter<'_>) -> fmt::Result {
        write!(
            f,
            "{} comparisons on {} sheets with role inclusions: {} met, {} unmet ({} in steps, {} \
             met without the inclusions), {} with fewer initial dominoes than without them",
            self.comparisons,
            self.sheets,
            self.met,
            self.unmet,
            self.unmet_in_steps,
            self.unmet_by_inclusions,
            self.fewer_initial
        )
    }
}

/// The parts of the restrictions that axioms in place of inclusions add.
fn added_parts(spelt: &SpeltOut, shape: Shape) -> Vec<usize> {
    let mut list = vec![0; 3 * shape.parts];
    list_marks(&spelt.sheet, &mut list).expect("a list long enough");
    let parts = list.chunks_exact(3).enumerate();
    let is_added = |part: &[u8]| part[0] == 3 && spelt.restrictions.contains(&part[1]);
    parts
        .filter(|(_, part)| is_added(part))
        .map(|(number, _)| number)
        .collect()
}

/// Sheets with role inclusions: the same survivors with axioms in their place,
/// and more perhaps without them.
///
/// # Panics
///
/// Where that is not so, or a sort of sheet is rare.
pub fn against_axioms(engine: &impl Judging) -> Tally {
    let mut random = Random::seeded(50);
    let mut tally = Tally::default();
    for (hex, ..) in worked::JUDGED {
        let sheet = worked::from_hex(hex);
        if super::has_any(&sheet) {
            tally.compare(engine, &sheet);
        }
    }
    for turn in 0..times(12_000) as usize {
        let size = 1 + turn / 4 % (MOST - 1);
        let sheet = match turn % 4 {
            0 => made_up::small_sheet(size, &mut random),
            1 => few_axioms::unmet_sheet(size, &mut random),
            _ => few_axioms::sheet(size, &mut random),
        };
        if super::has_any(&sheet) {
            tally.compare(engine, &sheet);
        }
    }
    assert!(tally.sheets >= 2_000 && tally.met >= 500, "{tally}");
    assert!(tally.unmet_in_steps >= 300, "{tally}");
    assert!(tally.unmet_by_inclusions >= 100, "{tally}");
    tally
}
