//! Judging sheets of 10 to 12 parts and roles, for which the reference takes too long:
//! engines against one that is given. And programs that judge by labels and are wrong.

mod by_labels;
mod expected;
mod program;
mod sheets;
mod slips;
mod tally;

pub mod suites;

pub use expected::Expected;
pub use program::Program;
pub use slips::Slip;
pub use tally::Tally;

use reference::{Judgement, Refusal};

/// What judges a sheet, with the refusals of the reference.
pub type Judge<'a> = &'a dyn Fn(&[u8], &mut [u64]) -> Result<Judgement, Refusal>;
