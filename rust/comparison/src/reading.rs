//! An engine against the reference: the calls about a sheet alone.

use crate::counting::{self, by_kind};
use crate::dominoes::list;
use crate::hex::Hex;
use crate::inclusions;
use crate::misreference;
use crate::random::Random;
use crate::sharing::Sharing;
use crate::{Reading, REFUSALS};
use reference::{Counts, Refusal};
use std::fmt;

/// Bytes on either side of a list, which no call may change.
const MARGIN: usize = 8;

/// No part has a first byte like this.
const NO_KIND: u8 = 0xFF;

/// One more than the most parts that a sheet may have.
const ROOM: usize = 13;

/// How many results were compared, and of which sort.
#[derive(Default)]
pub struct Tally {
    pub sheets: u64,
    pub comparisons: u64,
    pub accepted: u64,
    pub counts: counting::Tally,
    pub sharing: Sharing,
    pub inclusions: inclusions::Tally,
    /// By the number of the refusal.
    pub refused: [u64; REFUSALS],
    /// Those of a reference.
    pub misreferences: misreference::Tally,
}

impl Tally {
    /// Compares both calls on one sheet, the second with several lists.
    ///
    /// # Panics
    ///
    /// Where engine and reference differ.
    pub fn compare(&mut self, engine: &impl Reading, sheet: &[u8], random: &mut Random) {
        self.sheets += 1;
        let marks = match self.compare_read(engine, sheet) {
            Ok(counts) => {
                self.accepted += 1;
                self.compare_kinds(engine, sheet, counts);
                self.counts.count(counts);
                self.sharing.count(sheet, counts);
                self.inclusions.count(sheet);
                counts.marks() as usize
            }
            Err(refusal) => {
                self.refused[refusal.number as usize] += 1;
                self.misreferences.count(sheet, refusal);
                self.inclusions.count_refusal(sheet, refusal);
                random.below(13)
            }
        };
        let needed = 3 * marks;
        let longer = needed + 1 + random.below(24);
        self.compare_list(engine, sheet, needed, random);
        self.compare_list(engine, sheet, longer, random);
        if needed > 0 {
            let shorter = random.pick(&[0, needed - 1, needed.saturating_sub(3)]);
            self.compare_list(engine, sheet, shorter, random);
        }
    }

    fn compare_read(&mut self, engine: &impl Reading, sheet: &[u8]) -> Result<Counts, Refusal> {
        let expected = reference::read(sheet);
        assert_eq!(engine.read(sheet), expected, "read of {}", Hex(sheet));
        self.comparisons += 1;
        expected
    }

    /// A list with room has as many parts of each kind as were counted, and no
    /// others.
    fn compare_kinds(&mut self, engine: &impl Reading, sheet: &[u8], counts: Counts) {
        let what = Hex(sheet);
        let mut list = [[NO_KIND; 3]; ROOM];
        let answer = engine.list_marks(sheet, list.as_flattened_mut());
        assert_eq!(answer, Ok(()), "list of {what}");
        let kinds = || list.iter().map(|part| part[0]);
        let listed = kinds().take_while(|&kind| kind != NO_KIND).count() as u64;
        assert_eq!(listed, counts.marks(), "parts of {what}");
        for (number, count) in (0..).zip(by_kind(counts)) {
            let of_kind = kinds().filter(|&kind| kind == number).count() as u64;
            assert_eq!(of_kind, count, "parts of kind {number} of {what}");
        }
        self.comparisons += 1;
    }

    fn compare_list(
        &mut self,
        engine: &impl Reading,
        sheet: &[u8],
        len: usize,
        random: &mut Random,
    ) {
        let before = random.bytes(MARGIN + len + MARGIN);
        let list = MARGIN..MARGIN + len;

        let mut by_engine = before.clone();
        let answer = engine.list_marks(sheet, &mut by_engine[list.clone()]);
        let mut by_reference = before.clone();
        let expected = reference::list_marks(sheet, &mut by_reference[list]);

        assert_eq!(answer, expected.map(drop), "list of {}", Hex(sheet));
        assert_eq!(by_engine, by_reference, "bytes for {}", Hex(sheet));
        let written = expected.map_or(0, |marks| 3 * marks);
        assert_eq!(by_engine[..MARGIN], before[..MARGIN]);
        assert_eq!(by_engine[MARGIN + written..], before[MARGIN + written..]);
        if expected.is_err_and(|refusal| refusal.number == 12) {
            self.refused[12] += 1;
        }
        self.comparisons += 1;
    }
}

impl fmt::Display for Tally {
    fn fmt(&self, f: &mut fmt::Formatter<'_>) -> fmt::Result {
        write!(
            f,
            "{} comparisons on {} sheets: {} accepted",
            self.comparisons, self.sheets, self.accepted
        )?;
        list(f, "; refusals", &self.refused)?;
        self.misreferences.fmt(f)?;
        self.counts.fmt(f)?;
        self.sharing.fmt(f)?;
        self.inclusions.fmt(f)
    }
}
