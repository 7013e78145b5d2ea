//! Sheets from and to OWL 2 functional-style syntax (document 02, N7): texts made
//! from its grammar and damaged, sheets with and without Boolean roles in their
//! axioms and role inclusions, and the comparison of both calls.

mod damage;
mod made_up;
mod sheets;
mod tally;

pub mod suites;
pub mod worked;

pub use damage::{damaged, soup};
pub use made_up::{laid_out, nested, text, tokens, MAX_RECORDS};
pub use sheets::{
    with_inclusion, with_shared_leaves, with_text, with_unused_roles, with_used_role,
    with_used_role_and_inclusion,
};
pub use tally::{Call, Tally};
