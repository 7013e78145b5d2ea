//! What the reference says of a sheet that is to be drawn.

use crate::inclusions;
use reference::domino::insert;
use reference::output::put;
use reference::plant::{drawn_plant, interpretation};
use reference::written::Written;
use reference::{read, Counts, Refusal};

/// The bytes of an individual's record.
const INDIVIDUAL: usize = 3;

/// A sheet that is accepted, with what drawing it is to say and to leave.
pub struct Expected {
    pub sheet: Vec<u8>,
    pub counts: Counts,
    /// The words that judging leaves.
    pub judged: Vec<u64>,
    /// The plant, or 26 or 27.
    pub plant: Result<Vec<u8>, Refusal>,
}

impl Expected {
    /// That of a sheet.
    ///
    /// # Panics
    ///
    /// If the sheet is refused.
    #[must_use]
    pub fn of(sheet: Vec<u8>) -> Self {
        let counts = read(&sheet).expect("a sheet without faults");
        let mut judged = vec![0; counts.shape().words()];
        let plant = drawn_plant(&sheet, &mut judged);
        Expected {
            sheet,
            counts,
            judged,
            plant,
        }
    }

    /// How many dominoes judging leaves.
    #[must_use]
    pub fn survivors(&self) -> u64 {
        let ones = self.judged.iter().map(|word| u64::from(word.count_ones()));
        ones.sum()
    }

    /// The bytes of the plant, or the number of the refusal.
    ///
    /// # Errors
    ///
    /// 26 or 27.
    pub fn outcome(&self) -> Result<usize, u64> {
        let length = self.plant.as_ref().map(Vec::len);
        length.map_err(|refusal| refusal.number)
    }

    /// The bytes that the plant takes, or as many as the smallest takes.
    #[must_use]
    pub fn needed(&self) -> usize {
        self.outcome().unwrap_or(9)
    }

    #[must_use]
    pub fn has_inclusions(&self) -> bool {
        inclusions::has_any(&self.sheet)
    }

    /// What the call answers, and what it leaves of a set that is long enough and of
    /// an output.
    ///
    /// # Errors
    ///
    /// 26, 27 or 21.
    pub fn draw(&self, set: &mut [u64], out: &mut [u8]) -> Result<usize, Refusal> {
        set[..self.judged.len()].copy_from_slice(&self.judged);
        put(self.plant.as_ref().map_err(|&refusal| refusal)?, out)
    }

    /// Whether a file draws a model of the axioms and role inclusions as written, by
    /// 002's Table 1, in which individuals are in the fillers of the fresh names that
    /// they are drawn with. Without fresh names its dominoes are the judged ones.
    #[must_use]
    pub fn is_shown_by(&self, file: &[u8]) -> bool {
        self.shows(file).unwrap_or(false)
    }

    fn shows(&self, file: &[u8]) -> Result<bool, Refusal> {
        let drawn = interpretation(&self.sheet, file)?;
        let is_model = drawn.satisfies(&Written::read(&self.sheet)?);
        let individuals = file.chunks(INDIVIDUAL);
        let bits = individuals.map(|record| u64::from(record[1]) | u64::from(record[2]) << 8);
        let labels = drawn.labels(&self.sheet)?;
        let are_in_fillers = labels
            .iter()
            .zip(bits)
            .all(|(label, bits)| bits & !label == 0);
        if self.counts.fresh > 0 {
            return Ok(is_model && are_in_fillers);
        }
        let mut dominoes = vec![0; self.judged.len()];
        for domino in drawn.dominoes(&self.sheet)? {
            insert(&mut dominoes, self.counts.shape().number(domino));
        }
        Ok(is_model && are_in_fillers && dominoes == self.judged)
    }
}
