//! OWL 2 functional-style text, written from document 02's request N7 alone.
//!
//! A text is read into axioms as trees, and these are written as records; a
//! sheet's axioms, as the same trees, are written as a text.

mod parser;
mod records;
mod text;
mod tokens;

#[cfg(test)]
mod tests;

use crate::fault::{Fault, Refusal};
use crate::output::put;
use crate::written::{Axiom, Written};

/// The axioms of a text.
///
/// # Errors
///
/// 18, 19 or 3, whichever comes first in the text.
pub fn axioms(text: &[u8]) -> Result<Vec<Axiom>, Refusal> {
    parser::axioms(text)
}

/// Writes the sheet of a text and answers its length. Bytes past that are kept;
/// a refusal leaves the output as it was.
///
/// # Errors
///
/// The refusals of [`axioms`], then 21.
pub fn import(text: &[u8], out: &mut [u8]) -> Result<usize, Refusal> {
    put(&records::sheet(&axioms(text)?), out)
}

/// Writes the text of a sheet and answers its length. Bytes past that are kept;
/// a refusal leaves the output as it was.
///
/// # Errors
///
/// The refusals of [`read`](crate::read), then 20, then 21.
pub fn export(sheet: &[u8], out: &mut [u8]) -> Result<usize, Refusal> {
    crate::read(sheet)?;
    let written = Written::read(sheet)?;
    if let Some(start) = without_text(&written) {
        return Err(Refusal::at(start, Fault::NoText));
    }
    put(text::lines(&written.axioms).as_bytes(), out)
}

/// Where the first axiom with a Boolean role starts, or the first role
/// inclusion, whichever comes first.
fn without_text(written: &Written) -> Option<usize> {
    let mut axioms = written.axioms.iter().zip(&written.starts);
    let boolean = axioms.find(|(axiom, _)| text::has_boolean_role(axiom));
    let boolean = boolean.map(|(_, start)| start);
    boolean
        .into_iter()
        .chain(&written.inclusion_starts)
        .min()
        .copied()
}
