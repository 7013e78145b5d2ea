//! An independent reader, flattener and judge of knowledge bases (ALCIb,
//! description logic with inverse and Boolean roles, and role inclusions),
//! written from documents 01 and 02 alone.
//!
//! The bytes of a knowledge base are called a sheet. [`read`] checks a sheet
//! and counts; [`list_marks`] also lists the parts of the flattened knowledge
//! base. Neither allocates. [`open`], [`strike`], [`settle`] and [`judge`] go
//! through all dominoes, with the definitions applied as they stand. [`queue`]
//! judges the sheets of a queue (document 02, N1). [`owl`] has the text of a
//! sheet (N7). [`check_plant`] holds a plant on file against a sheet (N10),
//! [`draw_plant`] draws one of what judging leaves (N11), and [`interpretation`]
//! has what a plant is a model of, by the axioms as written.
//!
//! One claim has one part (document 02, N4); in [`apart`] each occurrence of a
//! restriction has its own.

mod calls;
mod conditions;
mod fault;
mod flatten;
mod kb;
mod sharing;

pub mod apart;
pub mod domino;
pub mod flat;
pub mod interpretation;
pub mod output;
pub mod owl;
pub mod plant;
pub mod queue;
pub mod written;

#[cfg(test)]
mod tests;

pub use calls::{judge, open, settle, strike, Judgement, Strike, Verdict};
pub use conditions::Conditions;
pub use fault::Refusal;
pub use plant::{check_plant, draw_plant, PlantCheck};

use domino::Shape;
use fault::Fault;
use flatten::{flatten, PART_BYTES};
use kb::Kb;
use sharing::Sharing;

/// What a sheet holds: the parts of its flattened knowledge base (document 01:
/// marks), counted by kind (document 02, N9), and its roles.
#[derive(Clone, Copy, Debug, Default, PartialEq, Eq)]
pub struct Counts {
    /// Concept names: one more than the largest number of one, or 0 (document 01: traits).
    pub traits: u64,
    /// Fresh names.
    pub fresh: u64,
    /// Existential restrictions, in negation normal form.
    pub some: u64,
    /// Universal restrictions, in negation normal form.
    pub only: u64,
    /// One more than the largest number of a role, or 0 (document 01: links).
    pub links: u64,
}

impl Counts {
    /// The parts of all kinds.
    #[must_use]
    pub fn marks(&self) -> u64 {
        self.traits + self.fresh + self.some + self.only
    }

    /// The shape of the dominoes of a sheet that has these.
    #[must_use]
    pub fn shape(&self) -> Shape {
        Shape {
            parts: self.marks() as usize,
            roles: self.links as usize,
        }
    }
}

/// Checks a sheet and counts its parts by kind, and its roles.
///
/// # Errors
///
/// Refusals 1 to 8, 16 and 17 for the first faulty record, then 9.
pub fn read(sheet: &[u8]) -> Result<Counts, Refusal> {
    read_by(sheet, Sharing::ByClaim)
}

fn read_by(sheet: &[u8], sharing: Sharing) -> Result<Counts, Refusal> {
    let mut kb = Kb::empty();
    kb.read(sheet)?;
    let parts = flatten(&kb, sharing)?;
    Ok(parts.counts(kb.roles()))
}

/// Writes three bytes for each part and answers the number of parts.
///
/// The bytes are the part's kind (0 name, 1 fresh name, 2 existential,
/// 3 universal), the name's or record's number, and 1 if that record is read
/// under an odd number of nots. Of the records that share a part the one first
/// met is listed. Bytes past the last part are kept; a refusal leaves the whole
/// list as it was.
///
/// # Errors
///
/// The refusals of [`read`], then 12.
pub fn list_marks(sheet: &[u8], list: &mut [u8]) -> Result<usize, Refusal> {
    list_marks_by(sheet, list, Sharing::ByClaim)
}

fn list_marks_by(sheet: &[u8], list: &mut [u8], sharing: Sharing) -> Result<usize, Refusal> {
    let mut kb = Kb::empty();
    kb.read(sheet)?;
    let parts = flatten(&kb, sharing)?;
    let parts = parts.as_slice();
    let used = list
        .get_mut(..PART_BYTES * parts.len())
        .ok_or(Refusal::of_whole(Fault::ListTooShort))?;
    for (slot, part) in used.chunks_exact_mut(PART_BYTES).zip(parts) {
        slot.copy_from_slice(&part.to_bytes());
    }
    Ok(parts.len())
}
