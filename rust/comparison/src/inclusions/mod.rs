//! Role inclusions (document 02, N8): records of them for made-up sheets, the
//! same sheets without them and with axioms in their place, and a tally.

mod made_up;
mod rewriting;
mod tally;

pub mod suites;

pub use made_up::{add, add_on_empty, MOST};
pub use rewriting::{spelt_out, without, SpeltOut};
pub use tally::Tally;

use crate::records::body_length;

/// The kind of their records.
pub const KIND: u8 = 0x21;

/// The kind of each record of a sheet whose kinds are known, up to one that is
/// cut off.
fn kinds(sheet: &[u8]) -> impl Iterator<Item = u8> + '_ {
    records(sheet).map(|record| record[0])
}

/// The records of a sheet, up to one that is not known or cut off.
fn records(sheet: &[u8]) -> impl Iterator<Item = &[u8]> {
    let mut rest = sheet;
    std::iter::from_fn(move || {
        let length = 1 + body_length(*rest.first()?)?;
        let (record, more) = rest.split_at_checked(length)?;
        rest = more;
        Some(record)
    })
}

/// Whether a sheet without faults has one.
#[must_use]
pub fn has_any(sheet: &[u8]) -> bool {
    kinds(sheet).any(|kind| kind == KIND)
}
