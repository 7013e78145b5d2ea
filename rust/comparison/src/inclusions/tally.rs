//! How many sheets have role inclusions, and faults that are about one.

use super::{has_any, kinds, KIND};
use reference::Refusal;
use std::fmt;

/// Sheets with role inclusions, and faults about one.
#[derive(Clone, Copy, Default)]
pub struct Tally {
    /// Accepted sheets that have one.
    pub with: u64,
    /// Accepted sheets that have none.
    pub without: u64,
    /// Refusals 8 of one.
    pub on_empty: u64,
    /// Refusals 17 for naming one.
    pub named: u64,
}

impl Tally {
    /// Counts a sheet that is accepted.
    pub fn count(&mut self, sheet: &[u8]) {
        if has_any(sheet) {
            self.with += 1;
        } else {
            self.without += 1;
        }
    }

    /// Counts a refusal that is about an inclusion.
    pub fn count_refusal(&mut self, sheet: &[u8], refusal: Refusal) {
        let place = refusal.place as usize;
        match refusal.number {
            8 => self.on_empty += u64::from(sheet[place] == KIND),
            17 => {
                let named = kinds(sheet).nth(usize::from(sheet[place]));
                self.named += u64::from(named == Some(KIND));
            }
            _ => {}
        }
    }
}

impl fmt::Display for Tally {
    fn fmt(&self, f: &mut fmt::Formatter<'_>) -> fmt::Result {
        write!(
            f,
            "; {} sheets with a role inclusion, {} without; refused 8 of one: {}, 17 for naming \
             one: {}",
            self.with, self.without, self.on_empty, self.named
        )
    }
}
