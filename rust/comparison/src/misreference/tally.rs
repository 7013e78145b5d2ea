//! How often each reference had each fault.

use super::Case;
use crate::dominoes::list;
use crate::records::reference_at;
use crate::REFUSALS;
use reference::Refusal;
use std::collections::BTreeMap;
use std::fmt;

/// Counts by the number of the refusal, for each kind and which of its
/// references (0 for the first).
#[derive(Default)]
pub struct Tally(BTreeMap<(u8, usize), [u64; REFUSALS]>);

impl Tally {
    /// Counts a refusal, if it is of a reference.
    ///
    /// # Panics
    ///
    /// If no reference stands at its place.
    pub fn count(&mut self, sheet: &[u8], refusal: Refusal) {
        let number = refusal.number as usize;
        if matches!(number, 5..=7 | 16 | 17) {
            let reference = reference_at(sheet, refusal.place as usize);
            let reference = reference.expect("a reference at the place of its fault");
            self.0.entry(reference).or_default()[number] += 1;
        }
    }

    /// How often the rarest case came.
    #[must_use]
    pub fn rarest(&self) -> u64 {
        let times = |case: Case| {
            let counts = self.0.get(&(case.kind, case.which));
            counts.map_or(0, |counts| counts[case.number() as usize])
        };
        Case::all().into_iter().map(times).min().unwrap_or(0)
    }
}

/// The kind in hex, a point, and 1 for the first reference or 2 for the second.
impl fmt::Display for Tally {
    fn fmt(&self, f: &mut fmt::Formatter<'_>) -> fmt::Result {
        let references = self.0.iter().enumerate();
        for (number, ((kind, which), counts)) in references {
            let before = if number == 0 { "; by reference" } else { "," };
            list(f, &format!("{before} {kind:02X}.{}", which + 1), counts)?;
        }
        match self.rarest() {
            0 => Ok(()),
            rarest => write!(f, "; each fault at each reference: {rarest} or more"),
        }
    }
}
