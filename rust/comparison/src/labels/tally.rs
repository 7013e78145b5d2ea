//! An engine against what is expected: the call that judges.

use super::{Expected, Judge};
use crate::dominoes::list;
use crate::hex::Hex;
use crate::inclusions;
use crate::lent::{contents, Lent};
use crate::random::Random;
use crate::sharing::Sharing;
use std::fmt;

/// How many results were compared, and of which sort.
#[derive(Default)]
pub struct Tally {
    pub comparisons: u64,
    /// Results that are not as they are to be, and what is said of the first.
    pub differences: u64,
    first_difference: Option<String>,
    pub sheets: u64,
    pub met: u64,
    /// Of the met: those of which an initial domino goes.
    pub met_in_steps: u64,
    pub unmet: u64,
    /// Of the unmet: those with an initial domino.
    pub unmet_in_steps: u64,
    /// Sheets by parts and roles together.
    pub sizes: [u64; 13],
    /// Sheets by roles.
    pub roles: [u64; 5],
    pub sharing: Sharing,
    pub inclusions: inclusions::Tally,
}

impl Tally {
    /// Counts a sheet.
    pub fn count(&mut self, expected: &Expected) {
        let (counts, judgement) = (expected.counts, expected.judgement);
        self.sheets += 1;
        self.sizes[(counts.marks() + counts.links) as usize] += 1;
        self.roles[counts.links as usize] += 1;
        self.sharing.count(&expected.sheet, counts);
        self.inclusions.count(&expected.sheet);
        let in_steps = u64::from(judgement.survivors < judgement.opening);
        if judgement.met {
            self.met += 1;
            self.met_in_steps += in_steps;
        } else {
            self.unmet += 1;
            self.unmet_in_steps += in_steps;
        }
    }

    /// Judges a sheet with a set that is long enough, and with one that is not.
    pub fn compare(&mut self, judge: Judge<'_>, expected: &Expected, random: &mut Random) {
        let needed = expected.judged.len();
        let long = needed + random.pick(&[0, 0, 1, 7]);
        let short = random.pick(&[0, needed - 1]);
        for words in [long, short] {
            let mut set = few_over_and_over(words, random);
            let mut lent = Lent::new(&set);
            let judged = judge(&expected.sheet, lent.lend());
            let to_be = expected.judge(&mut set);
            self.comparisons += 1;
            if judged != to_be || !lent.is(&set) {
                self.differences += 1;
                self.first_difference.get_or_insert_with(|| {
                    let what = Hex(&expected.sheet);
                    format!("judging {what}, {words} words: {judged:?}, expected {to_be:?}")
                });
            }
        }
    }

    /// # Panics
    ///
    /// If a result was not as it is to be.
    pub fn assert_none_differs(&self) {
        if let Some(first) = &self.first_difference {
            panic!("{} differ, first {first}", self.differences);
        }
    }
}

/// So many words: a few, over and over.
fn few_over_and_over(count: usize, random: &mut Random) -> Vec<u64> {
    let few = contents(61, random);
    let mut words = few.repeat(count.div_ceil(few.len()));
    words.truncate(count);
    words
}

impl fmt::Display for Tally {
    fn fmt(&self, f: &mut fmt::Formatter<'_>) -> fmt::Result {
        write!(
            f,
            "{} comparisons on {} sheets: {} met ({} of them in steps), {} unmet ({} of them in \
             steps)",
            self.comparisons,
            self.sheets,
            self.met,
            self.met_in_steps,
            self.unmet,
            self.unmet_in_steps
        )?;
        list(f, "; sheets by c + L", &self.sizes)?;
        list(f, ", by L", &self.roles)?;
        self.sharing.fmt(f)?;
        self.inclusions.fmt(f)
    }
}
