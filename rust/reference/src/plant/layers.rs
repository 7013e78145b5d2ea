//! The plant that is drawn of a sheet, written from document 02's request N11
//! alone: three layers of the survivors, each joined to the next.

use super::file::{Connection, File};
use crate::calls::judge_flat;
use crate::domino::Domino;
use crate::fault::{Fault, Refusal};
use crate::flat::{flatten, FlatKb};
use crate::output::put;

#[cfg(test)]
mod tests;

const LAYERS: usize = 3;

/// The most survivors of which a plant is drawn.
const MOST_SURVIVORS: u64 = 341;

/// Judges a sheet, writes the plant of what is left, and answers its length. Bytes
/// past that are kept; a refusal leaves the output as it was, and one past those
/// of [`judge`](crate::judge) the set as judged.
///
/// # Errors
///
/// The refusals of [`judge`](crate::judge), then 26 if nothing is left, 27 if more
/// than 341 dominoes are, then 21.
pub fn draw_plant(sheet: &[u8], set: &mut [u64], out: &mut [u8]) -> Result<usize, Refusal> {
    put(&drawn_plant(sheet, set)?, out)
}

/// Judges a sheet and draws the plant of what is left.
///
/// # Errors
///
/// The refusals of [`draw_plant`] but 21.
pub fn drawn_plant(sheet: &[u8], set: &mut [u64]) -> Result<Vec<u8>, Refusal> {
    let kb = flatten(sheet)?;
    match judge_flat(&kb, set)?.survivors {
        0 => Err(Refusal::of_whole(Fault::NoSurvivors)),
        1..=MOST_SURVIVORS => Ok(plant(&kb, set).bytes()),
        _ => Err(Refusal::of_whole(Fault::TooManySurvivors)),
    }
}

/// The plant of the members of a set.
fn plant(kb: &FlatKb, set: &[u64]) -> File {
    let survivors: Vec<Domino> = kb.shape().members(set).collect();
    File {
        individuals: individuals(kb, &survivors),
        connections: connections(kb, &survivors),
    }
}

/// In each layer one for each survivor, with the names and fresh names of its
/// right label.
fn individuals(kb: &FlatKb, survivors: &[Domino]) -> Vec<u64> {
    let layer = survivors.iter().map(|survivor| drawn(kb, survivor.right));
    layer.collect::<Vec<_>>().repeat(LAYERS)
}

/// The names and fresh names of a label.
fn drawn(kb: &FlatKb, label: u64) -> u64 {
    let bits = (0..kb.parts.len()).filter(|&part| kb.is_drawn(part));
    bits.fold(0, |drawn, part| drawn | label & 1 << part)
}

/// All connections, by the first individual, the second, and the role. A survivor
/// joins one of a layer to its own in the next where the right label of the one is
/// its own left label.
fn connections(kb: &FlatKb, survivors: &[Domino]) -> Vec<Connection> {
    let individual = |layer: usize, survivor: usize| (layer * survivors.len() + survivor) as u16;
    let mut connections = Vec::new();
    for layer in 0..LAYERS {
        let next = (layer + 1) % LAYERS;
        for (i, one) in survivors.iter().enumerate() {
            for (j, joining) in survivors.iter().enumerate() {
                if one.right == joining.left {
                    let pair = [individual(layer, i), individual(next, j)];
                    connections.extend(joined(kb, pair, joining.roles));
                }
            }
        }
    }
    connections.sort_unstable();
    connections.dedup();
    connections
}

/// The connections that a role set says of two individuals: a role is one from the
/// first to the second, an inverse role one back.
fn joined(kb: &FlatKb, [x, y]: [u16; 2], roles: u64) -> Vec<Connection> {
    let mut connections = Vec::new();
    for role in 0..kb.roles as u8 {
        if roles >> (2 * role) & 1 == 1 {
            let (from, to) = (x, y);
            connections.push(Connection { from, to, role });
        }
        if roles >> (2 * role + 1) & 1 == 1 {
            let (from, to) = (y, x);
            connections.push(Connection { from, to, role });
        }
    }
    connections
}
