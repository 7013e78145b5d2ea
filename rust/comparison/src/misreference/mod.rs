//! References with a fault (document 02, N6): fixed rows, made-up sheets, and a
//! tally.

mod made_up;
mod tally;

pub mod suites;
pub mod worked;

pub use made_up::{add, sheet};
pub use tally::Tally;

use crate::records::{wants, Sort, REFERRING};

/// What is wrong with a reference.
#[derive(Clone, Copy, Debug, PartialEq, Eq)]
pub enum Fault {
    NotEarlier,
    /// A role for a concept, or a concept for a role.
    WrongSort,
    AxiomNamed,
    NamedTwice,
}

/// A fault at a reference of a kind.
#[derive(Clone, Copy, Debug, PartialEq, Eq)]
pub struct Case {
    pub kind: u8,
    /// 0 for the first reference, 1 for the second.
    pub which: usize,
    pub fault: Fault,
}

impl Case {
    /// Each fault at each reference of each kind: 72.
    #[must_use]
    pub fn all() -> Vec<Self> {
        use Fault::{AxiomNamed, NamedTwice, NotEarlier, WrongSort};
        let references = REFERRING
            .iter()
            .flat_map(|&(kind, wants)| (0..wants.len()).map(move |which| (kind, which)));
        let cases = references.flat_map(|(kind, which)| {
            [NotEarlier, WrongSort, AxiomNamed, NamedTwice].map(|fault| Case { kind, which, fault })
        });
        cases.collect()
    }

    /// What the reference wants.
    fn wanted(self) -> Sort {
        wants(self.kind)[self.which]
    }

    /// The number of its refusal.
    #[must_use]
    pub fn number(self) -> u64 {
        match (self.fault, self.wanted()) {
            (Fault::NotEarlier, _) => 5,
            (Fault::WrongSort, Sort::Concept) => 6,
            (Fault::WrongSort, Sort::Role) => 16,
            (Fault::AxiomNamed, _) => 17,
            (Fault::NamedTwice, _) => 7,
        }
    }
}
