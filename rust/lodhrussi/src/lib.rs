//! Reads, flattens and judges knowledge bases of the description logic ALCIb
//! with role inclusions, checks finite interpretations against them and draws finite
//! models of them, and takes them from and to OWL 2 functional-style syntax, by calls
//! into the static library `capi`.
//!
//! The bytes of a knowledge base are called a sheet: records of concepts, roles,
//! axioms and role inclusions, each record naming earlier ones. Those of a finite
//! interpretation are called a plant: records of individuals, called items, and of
//! connections between earlier ones.
//!
//! Judging goes by dominoes: a domino is two labels (sets of parts, one for
//! each of two individuals) and the set of roles between them. The canonical
//! domino set is the largest in which no domino is defective, and the knowledge
//! base has a finite model of at least one individual precisely if that set is
//! not empty. Domino sets are lent as words: domino n is bit n mod 64 of word
//! n / 64, and with c parts, L roles, a left label A, a role set R and a right
//! label B, n is A × 2<sup>2L + c</sup> + R × 2<sup>c</sup> + B.
//!
//! ```
//! // Everything, role 0, name 0; some of role 0 is name 0; an axiom: everything is that.
//! let sheet = [1, 0x10, 0, 3, 0, 7, 1, 2, 0x20, 0, 3];
//!
//! let counts = lodhrussi::read(&sheet)?;
//! assert_eq!((counts.traits, counts.links, counts.marks()), (1, 1, 2));
//!
//! let mut list = [0; 6];
//! lodhrussi::list_marks(&sheet, &mut list)?;
//! assert_eq!(list, [0, 0, 0, 2, 3, 0]);
//!
//! let mut set = [0; 1];
//! assert!(lodhrussi::judge(&sheet, &mut set)?.met);
//!
//! // A restriction is cut off at byte 5.
//! let refusal = lodhrussi::read(&sheet[..7]).unwrap_err();
//! assert_eq!((refusal.number, refusal.place), (2, 5));
//!
//! let text = "SubClassOf(owl:Thing ObjectSomeValuesFrom(:k0 :t0))\n";
//! assert_eq!(lodhrussi::exported(&sheet)?, text);
//!
//! // An item with name 0, and a connection of role 0 from it to itself.
//! let plant = [0x40, 1, 0, 0x41, 0, 0, 0, 0, 0];
//! let found = lodhrussi::check_plant(&sheet, &plant, &mut set)?;
//! assert_eq!(found, lodhrussi::PlantCheck::Holds);
//!
//! let plant = lodhrussi::drawn_plant(&sheet, &mut set)?;
//! assert_eq!(plant.len(), 2_448);
//! # Ok::<(), lodhrussi::Refusal>(())
//! ```

mod call;
mod condition;
mod dominoes;
mod drawing;
mod ffi;
mod owl;
mod plants;
mod refusal;

pub mod records;

#[cfg(test)]
mod tests;

pub use call::Call;
pub use condition::Condition;
pub use dominoes::{judge, open, settle, strike, words_needed, Judgement, Strike, Verdict};
pub use drawing::{draw_plant, drawn_plant};
pub use owl::{export, exported, import, imported};
pub use plants::{check_plant, PlantCheck};
pub use refusal::Refusal;

/// What a sheet holds: the parts of its flattened knowledge base, counted by
/// kind as [`list_marks`] lists them, and its roles.
#[derive(Clone, Copy, Debug, Default, PartialEq, Eq, Hash)]
pub struct Counts {
    /// Concept names: one more than the largest number of one, or 0.
    pub traits: u64,
    /// Fresh names, of fillers.
    pub fresh: u64,
    /// Existential restrictions, in negation normal form.
    pub some: u64,
    /// Universal restrictions, in negation normal form.
    pub only: u64,
    /// One more than the largest number of a role, or 0.
    pub links: u64,
}

impl Counts {
    /// How many parts there are in all: the sum of the counts by kind. Of a
    /// sheet that is read, parts and roles come to at most 12; of other counts
    /// the sum stops at the largest number.
    #[must_use]
    pub fn marks(&self) -> u64 {
        let kinds = [self.fresh, self.some, self.only];
        kinds.into_iter().fold(self.traits, u64::saturating_add)
    }
}

/// Checks a sheet and counts its parts by kind, and its roles.
///
/// # Errors
///
/// Refusals 1 to 8, 16 and 17 for the first faulty record, then 9.
///
/// ```
/// assert_eq!(lodhrussi::read(&[])?, lodhrussi::Counts::default());
/// # Ok::<(), lodhrussi::Refusal>(())
/// ```
pub fn read(sheet: &[u8]) -> Result<Counts, Refusal> {
    let mut place = 0;
    let mut counts = Counts::default();
    // SAFETY: the pointer and length are those of `sheet`, which is only read;
    // the other pointers are to six separate numbers of ours.
    let number = unsafe {
        ffi::lodhrussi_read(
            sheet.as_ptr(),
            sheet.len(),
            &raw mut place,
            &raw mut counts.traits,
            &raw mut counts.fresh,
            &raw mut counts.some,
            &raw mut counts.only,
            &raw mut counts.links,
        )
    };
    Refusal::check(Call::Read, number, place)?;
    Ok(counts)
}

/// Lists the parts of the flattened knowledge base, three bytes each.
///
/// The bytes of a part are
///
/// 1. its kind: 0 concept name, 1 fresh name of a filler, 2 existential
///    restriction, 3 universal restriction, in negation normal form;
/// 2. the name's number; else the number of the filler's or restriction's record;
/// 3. 1 if that record is read under an odd number of nots, else 0. The left
///    side of an axiom counts as a not.
///
/// One claim has one part: restrictions of the same kind in normal form, with
/// roles written alike and the same filler in normal form, share a part if that
/// filler is a name, everything or nothing. The record first met is listed.
///
/// Bytes of `list` past the last part are kept; a refusal keeps all.
///
/// # Errors
///
/// The refusals of [`read`], then 12 if `list` is shorter than
/// 3 × [`Counts::marks`].
///
/// ```
/// // Twice: everything is some of role 0 is name 0.
/// let sheet = [1, 0x10, 0, 3, 0, 7, 1, 2, 0x20, 0, 3, 7, 1, 2, 0x20, 0, 5];
/// let mut list = [9; 9];
/// lodhrussi::list_marks(&sheet, &mut list)?;
/// assert_eq!(list, [0, 0, 0, 2, 3, 0, 9, 9, 9]);
/// # Ok::<(), lodhrussi::Refusal>(())
/// ```
pub fn list_marks(sheet: &[u8], list: &mut [u8]) -> Result<(), Refusal> {
    let mut place = 0;
    // SAFETY: pointers and lengths are those of `sheet`, which is only read,
    // and of `list`; the last pointer is to a number of ours. They do not overlap.
    let number = unsafe {
        ffi::lodhrussi_list_marks(
            sheet.as_ptr(),
            sheet.len(),
            list.as_mut_ptr(),
            list.len(),
            &raw mut place,
        )
    };
    Refusal::check(Call::ListMarks, number, place)
}
