//! A program for the product's place that judges by labels, with a slip or with none.

use super::by_labels::ByLabels;
use super::Slip;
use reference::flat::flatten;
use reference::{Judgement, Refusal};

/// A program with a slip, or with none.
pub struct Program {
    slip: Option<Slip>,
}

impl Program {
    #[must_use]
    pub fn with(slip: Option<Slip>) -> Self {
        Program { slip }
    }

    fn has(&self, slip: Slip) -> bool {
        self.slip == Some(slip)
    }

    /// Judges a sheet.
    ///
    /// # Errors
    ///
    /// The refusals of the reference.
    pub fn judge(&self, sheet: &[u8], set: &mut [u64]) -> Result<Judgement, Refusal> {
        let kb = flatten(sheet)?;
        let needed = kb.shape().words();
        if set.len() < needed {
            if self.has(Slip::ClearedWhereShort) {
                set.fill(0);
            }
            return Err(Refusal {
                number: 10,
                place: 0,
            });
        }
        let (words, past) = set.split_at_mut(needed);
        let by_labels = ByLabels::of(self.slip, &kb);
        let live = by_labels.live();
        let opening = by_labels.opening(&live);
        if !self.has(Slip::WordsNotCleared) {
            words.fill(0);
        }
        by_labels.write(&live, words);
        if self.has(Slip::WordsPastCleared) {
            past.fill(0);
        }
        let written = words.iter().map(|word| u64::from(word.count_ones())).sum();
        let survivors = match self.slip {
            Some(Slip::SurvivorsAsOpened) => opening,
            _ => written,
        };
        let met = match self.slip {
            Some(Slip::MetAsOpened) => opening > 0,
            _ => written > 0,
        };
        Ok(Judgement {
            opening,
            survivors,
            met,
        })
    }
}
