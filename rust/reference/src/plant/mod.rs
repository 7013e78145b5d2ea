//! Plants on file against a sheet, written from document 02's request N10 alone, and
//! drawn of a sheet, from N11.
//!
//! A plant is a finite interpretation: its individuals (document 01: items) with
//! their names, the connections between them, and beside that fresh names as
//! drawn.

mod drawn;
mod file;
mod layers;

#[cfg(test)]
mod tests;

pub use drawn::Breaches;
pub use layers::{draw_plant, drawn_plant};

use crate::domino::insert;
use crate::fault::{Fault, Refusal};
use crate::flat::flatten;
use crate::interpretation::Interpretation;
use drawn::Drawn;

/// What checking a plant finds.
#[derive(Clone, Copy, Debug, PartialEq, Eq)]
pub enum PlantCheck {
    /// Each flattened axiom holds of each individual, each role inclusion of each
    /// ordered pair.
    Holds,
    /// The first individual of which a flattened axiom does not hold.
    Item(usize),
    /// There is no such individual; the first ordered pair, by the first and then
    /// by the second, of which a role inclusion does not hold.
    Pair(usize, usize),
}

/// Writes the dominoes of all ordered pairs of a plant's individuals, and tells
/// what breaks first, if anything does. Words past those needed are kept; a
/// refusal leaves the whole set as it was.
///
/// # Errors
///
/// The refusals of [`read`](crate::read), then 10, then 22 to 25.
pub fn check_plant(sheet: &[u8], plant: &[u8], set: &mut [u64]) -> Result<PlantCheck, Refusal> {
    let kb = flatten(sheet)?;
    let shape = kb.shape();
    let used = set.get_mut(..shape.words());
    let used = used.ok_or(Refusal::of_whole(Fault::SetTooShort))?;
    let drawn = Drawn::new(&kb, file::read(plant, &kb)?);
    used.fill(0);
    for domino in drawn.dominoes() {
        insert(used, shape.number(domino));
    }
    Ok(drawn.breaches().first())
}

/// All that breaks in a plant.
///
/// # Errors
///
/// The refusals of [`check_plant`] but for 10.
pub fn breaches(sheet: &[u8], plant: &[u8]) -> Result<Breaches, Refusal> {
    let kb = flatten(sheet)?;
    let file = file::read(plant, &kb)?;
    Ok(Drawn::new(&kb, file).breaches())
}

/// What a plant says of names and roles alone, without its fresh names.
///
/// # Errors
///
/// The refusals of [`check_plant`] but for 10.
pub fn interpretation(sheet: &[u8], plant: &[u8]) -> Result<Interpretation, Refusal> {
    let kb = flatten(sheet)?;
    let file = file::read(plant, &kb)?;
    let mut drawn = Interpretation::of(file.individuals.len(), kb.names, kb.roles);
    for (x, bits) in file.individuals.iter().enumerate() {
        for name in (0..kb.names).filter(|name| bits >> name & 1 == 1) {
            drawn.give(x, name);
        }
    }
    for connection in &file.connections {
        let [from, to] = [connection.from, connection.to].map(usize::from);
        drawn.join(from, to, usize::from(connection.role));
    }
    Ok(drawn)
}
