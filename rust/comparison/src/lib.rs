//! Made-up sheets and plants, and the comparison of an engine's calls with the
//! reference: answers, places, and each word and byte of what is lent.

pub mod claims;
pub mod copies;
pub mod counting;
pub mod damage;
pub mod dominoes;
pub mod drawn;
pub mod few_axioms;
pub mod inclusions;
pub mod labels;
pub mod made_up;
pub mod misreference;
pub mod owl;
pub mod plants;
pub mod program;
pub mod queues;
pub mod random;
pub mod reading;
pub mod records;
pub mod running;
pub mod sequences;
pub mod sharing;
pub mod suites;
pub mod worked;

mod hex;
mod lent;
mod slips;

use reference::{Counts, Judgement, PlantCheck, Refusal, Strike};

/// One more than the largest number of a refusal.
pub const REFUSALS: usize = 28;

/// The calls about a sheet alone, with the refusals of the reference.
#[allow(clippy::missing_errors_doc)]
pub trait Reading {
    fn read(&self, sheet: &[u8]) -> Result<Counts, Refusal>;
    fn list_marks(&self, sheet: &[u8], list: &mut [u8]) -> Result<(), Refusal>;
}

/// The calls about a sheet and a domino set, with the refusals of the reference.
#[allow(clippy::missing_errors_doc)]
pub trait Judging {
    fn open(&self, sheet: &[u8], set: &mut [u64]) -> Result<u64, Refusal>;
    fn strike(&self, sheet: &[u8], set: &mut [u64], number: u64) -> Result<Strike, Refusal>;
    fn settle(&self, sheet: &[u8], set: &mut [u64]) -> Result<u64, Refusal>;
    fn judge(&self, sheet: &[u8], set: &mut [u64]) -> Result<Judgement, Refusal>;
}

/// The calls from and to OWL 2 functional-style syntax, with the refusals of the
/// reference.
#[allow(clippy::missing_errors_doc)]
pub trait Translating {
    fn import(&self, text: &[u8], out: &mut [u8]) -> Result<usize, Refusal>;
    fn export(&self, sheet: &[u8], out: &mut [u8]) -> Result<usize, Refusal>;
}

/// The call about a sheet, a plant on file and a domino set, with the refusals of
/// the reference.
#[allow(clippy::missing_errors_doc)]
pub trait Checking {
    fn check_plant(
        &self,
        sheet: &[u8],
        plant: &[u8],
        set: &mut [u64],
    ) -> Result<PlantCheck, Refusal>;
}

/// The call that draws a plant of a sheet, with the refusals of the reference.
#[allow(clippy::missing_errors_doc)]
pub trait Planting {
    fn draw_plant(&self, sheet: &[u8], set: &mut [u64], out: &mut [u8]) -> Result<usize, Refusal>;
}

/// The reference itself.
pub struct Reference;

impl Reading for Reference {
    fn read(&self, sheet: &[u8]) -> Result<Counts, Refusal> {
        reference::read(sheet)
    }

    fn list_marks(&self, sheet: &[u8], list: &mut [u8]) -> Result<(), Refusal> {
        reference::list_marks(sheet, list).map(drop)
    }
}

impl Judging for Reference {
    fn open(&self, sheet: &[u8], set: &mut [u64]) -> Result<u64, Refusal> {
        reference::open(sheet, set)
    }

    fn strike(&self, sheet: &[u8], set: &mut [u64], number: u64) -> Result<Strike, Refusal> {
        reference::strike(sheet, set, number)
    }

    fn settle(&self, sheet: &[u8], set: &mut [u64]) -> Result<u64, Refusal> {
        reference::settle(sheet, set)
    }

    fn judge(&self, sheet: &[u8], set: &mut [u64]) -> Result<Judgement, Refusal> {
        reference::judge(sheet, set)
    }
}

impl Translating for Reference {
    fn import(&self, text: &[u8], out: &mut [u8]) -> Result<usize, Refusal> {
        reference::owl::import(text, out)
    }

    fn export(&self, sheet: &[u8], out: &mut [u8]) -> Result<usize, Refusal> {
        reference::owl::export(sheet, out)
    }
}

impl Checking for Reference {
    fn check_plant(
        &self,
        sheet: &[u8],
        plant: &[u8],
        set: &mut [u64],
    ) -> Result<PlantCheck, Refusal> {
        reference::check_plant(sheet, plant, set)
    }
}

impl Planting for Reference {
    fn draw_plant(&self, sheet: &[u8], set: &mut [u64], out: &mut [u8]) -> Result<usize, Refusal> {
        reference::draw_plant(sheet, set, out)
    }
}
