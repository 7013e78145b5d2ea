//! What judging a sheet is to say and to leave.

use super::Judge;
use reference::{read, Counts, Judgement, Refusal};

/// A sheet that is accepted, with what another engine says and leaves.
pub struct Expected {
    pub sheet: Vec<u8>,
    pub counts: Counts,
    pub judgement: Judgement,
    /// The words that are left.
    pub judged: Vec<u64>,
}

impl Expected {
    /// That of a sheet.
    ///
    /// # Panics
    ///
    /// If the sheet is refused.
    #[must_use]
    pub fn of(sheet: Vec<u8>, yardstick: Judge<'_>) -> Self {
        let counts = read(&sheet).expect("a sheet without faults");
        let mut judged = vec![0; counts.shape().words()];
        let judgement = yardstick(&sheet, &mut judged).expect("a set long enough");
        Expected {
            sheet,
            counts,
            judgement,
            judged,
        }
    }

    /// Judges the sheet.
    ///
    /// # Errors
    ///
    /// 10.
    pub fn judge(&self, set: &mut [u64]) -> Result<Judgement, Refusal> {
        let words = set.get_mut(..self.judged.len()).ok_or(Refusal {
            number: 10,
            place: 0,
        })?;
        words.copy_from_slice(&self.judged);
        Ok(self.judgement)
    }
}
