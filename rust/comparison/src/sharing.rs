//! How many sheets have parts that several occurrences share.

use reference::{apart, Counts};
use std::fmt;

/// Sheets that are accepted with shared parts.
#[derive(Clone, Copy, Default)]
pub struct Sharing {
    /// Those with fewer parts than occurrences apart would have.
    pub shared: u64,
    /// Of these, those that are refused 9 with each occurrence apart.
    pub refused_apart: u64,
}

impl Sharing {
    /// Counts a sheet that is accepted.
    ///
    /// # Panics
    ///
    /// If it has more restrictions than with each occurrence apart, other names or
    /// roles, or another fault.
    pub fn count(&mut self, sheet: &[u8], counts: Counts) {
        match apart::read(sheet) {
            Ok(apart) => {
                assert!(counts.some <= apart.some && counts.only <= apart.only);
                let others = |counts: Counts| (counts.traits, counts.fresh, counts.links);
                assert_eq!(others(counts), others(apart));
                self.shared += u64::from(counts.marks() < apart.marks());
            }
            Err(refusal) => {
                assert_eq!(refusal.number, 9);
                self.shared += 1;
                self.refused_apart += 1;
            }
        }
    }
}

impl fmt::Display for Sharing {
    fn fmt(&self, f: &mut fmt::Formatter<'_>) -> fmt::Result {
        write!(
            f,
            "; {} sheets with a shared part, {} of them refused 9 with parts apart",
            self.shared, self.refused_apart
        )
    }
}
