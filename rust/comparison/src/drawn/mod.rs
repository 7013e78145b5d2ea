//! Plants drawn of what judging leaves (document 02, N11): sheets that leave few
//! dominoes, the comparison of the call, and programs that are wrong.

mod expected;
mod layers;
mod program;
mod sheets;
mod slips;
mod tally;

pub mod suites;
pub mod worked;

pub use expected::Expected;
pub use program::Program;
pub use slips::Slip;
pub use tally::Tally;

/// The most survivors of which a plant is drawn.
pub const MOST: u64 = 341;
