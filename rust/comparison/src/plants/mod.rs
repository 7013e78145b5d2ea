//! Plants on file (document 02, N10): drawn in several ways for a sheet, written
//! in several orders, damaged, and the comparison of the check.

mod damage;
mod drawing;
mod fault;
mod ground;
mod made_up;
mod pool;
mod sheets;
mod tally;

pub mod every;
pub mod fixed;
pub mod models;
pub mod suites;
pub mod worked;

pub use drawing::{individual, Connection, Drawing};
pub use fault::Case;
pub use ground::{Ground, Survivors};
pub use made_up::{any, layers, of_survivors, with_fillers};
pub use pool::Pool;
pub use sheets::{large_sheet, sheet};
pub use tally::Tally;

/// The most individuals that a plant may have.
pub const MOST: usize = 1_024;
