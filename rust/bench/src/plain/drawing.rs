//! The plant of a domino set: its members thrice, in three layers. The length by a
//! pass over the pairs of members, then the bytes, item by item and layer by layer.

use super::tables::Tables;
use comparison::plants::{individual, Connection};
use std::slice::ChunksExactMut;

/// The members of which a plant has three items each.
const MOST: usize = 341;

const LAYERS: usize = 3;

struct Domino {
    left: u16,
    /// Role k in bit 2k, its inverse in the bit after that.
    roles: u8,
    /// The roles back.
    inverse: u8,
    right: u16,
}

/// The members of a set, in rising order; none if there are too many.
fn members(tables: &Tables, set: &[u64]) -> Option<Vec<Domino>> {
    let mut members = Vec::with_capacity(MOST);
    for (at, &word) in (0..).zip(set) {
        let mut rest = word;
        while rest != 0 {
            if members.len() == MOST {
                return None;
            }
            members.push(domino(tables, 64 * at + u64::from(rest.trailing_zeros())));
            rest &= rest - 1;
        }
    }
    Some(members)
}

fn domino(tables: &Tables, number: u64) -> Domino {
    let sizes = tables.sizes;
    let roles = number >> sizes.label & (sizes.role_sets() - 1);
    Domino {
        left: (number >> sizes.row()) as u16,
        roles: roles as u8,
        inverse: tables.inverse[roles as usize] as u8,
        right: (number & (sizes.labels() - 1)) as u16,
    }
}

/// The role set from an item of the one member to that of the other in the next
/// layer, around.
fn forth(from: &Domino, to: &Domino) -> u8 {
    if from.right == to.left {
        to.roles
    } else {
        0
    }
}

/// The same to the layer before.
fn back(from: &Domino, to: &Domino) -> u8 {
    if to.right == from.left {
        from.inverse
    } else {
        0
    }
}

/// The connections that a role set makes.
fn connections(roles: u8) -> usize {
    (roles & 0x55).count_ones() as usize
}

fn length(members: &[Domino]) -> usize {
    let mut joined = 0;
    for from in members {
        for to in members {
            joined += connections(forth(from, to)) + connections(back(from, to));
        }
    }
    LAYERS * (3 * members.len() + 6 * joined)
}

/// Writes the plant and answers its length, or the number of the refusal.
pub fn draw(tables: &Tables, set: &[u64], out: &mut [u8]) -> Result<usize, u64> {
    let members = members(tables, set).ok_or(27_u64)?;
    if members.is_empty() {
        return Err(26);
    }
    let length = length(&members);
    let plant = out.get_mut(..length).ok_or(21_u64)?;
    let (items, connections) = plant.split_at_mut(3 * LAYERS * members.len());
    write_items(tables.named(), &members, items);
    write_connections(tables.sizes.roles(), &members, connections);
    Ok(length)
}

fn write_items(named: u16, members: &[Domino], out: &mut [u8]) {
    let names = members.iter().map(|member| member.right & named);
    for (record, names) in out.chunks_exact_mut(3).zip(names.cycle()) {
        record.copy_from_slice(&individual(names));
    }
}

fn write_connections(roles: u32, members: &[Domino], out: &mut [u8]) {
    let records = out.chunks_exact_mut(6);
    let mut rest = Rest { roles, records };
    for item in 0..LAYERS * members.len() {
        let (layer, from) = (item / members.len(), &members[item % members.len()]);
        for to_layer in 0..LAYERS {
            let first = to_layer * members.len();
            let to = (first..).zip(members);
            match (to_layer + LAYERS - layer) % LAYERS {
                0 => {}
                1 => rest.write(item, to.map(|(number, to)| (number, forth(from, to)))),
                _ => rest.write(item, to.map(|(number, to)| (number, back(from, to)))),
            }
        }
    }
}

/// The records that are still to be written.
struct Rest<'a> {
    roles: u32,
    records: ChunksExactMut<'a, u8>,
}

impl Rest<'_> {
    /// The connections from an item to others, each with the role set to it.
    fn write(&mut self, from: usize, others: impl Iterator<Item = (usize, u8)>) {
        for (to, joined) in others.filter(|&(_, joined)| joined != 0) {
            for role in (0..self.roles as usize).filter(|role| joined >> (2 * role) & 1 == 1) {
                let connection = Connection { from, to, role };
                let record = self.records.next().expect("room for the length");
                record.copy_from_slice(&connection.record());
            }
        }
    }
}
