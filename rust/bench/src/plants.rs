//! Drawn plants: of random items and connections, or of all connections.

use comparison::plants::{individual, Connection};
use comparison::random::Random;
use comparison::{few_axioms, made_up};
use reference::flat::{flatten, Part};

/// A plant under construction.
#[derive(Clone, Default)]
pub struct Plant {
    bytes: Vec<u8>,
    items: usize,
    connections: usize,
}

impl Plant {
    #[must_use]
    pub fn bytes(&self) -> &[u8] {
        &self.bytes
    }

    #[must_use]
    pub fn items(&self) -> usize {
        self.items
    }

    #[must_use]
    pub fn connections(&self) -> usize {
        self.connections
    }

    /// Adds an item with these names and fresh names.
    pub fn item(&mut self, names: u16) {
        self.bytes.extend(individual(names));
        self.items += 1;
    }

    pub fn connection(&mut self, from: u16, to: u16, role: u8) {
        let connection = Connection {
            from: from.into(),
            to: to.into(),
            role: role.into(),
        };
        self.bytes.extend(connection.record());
        self.connections += 1;
    }

    /// So many items, each with random ones of these names.
    pub fn random_items(&mut self, items: u16, names: u16, random: &mut Random) {
        for _ in 0..items {
            self.item(random.word() as u16 & names);
        }
    }

    /// So many connections, between random ones of the first items.
    pub fn random_connections(&mut self, count: usize, items: u16, roles: u8, random: &mut Random) {
        let end = |random: &mut Random| random.below(usize::from(items)) as u16;
        for _ in 0..count {
            let (from, to) = (end(random), end(random));
            self.connection(from, to, random.byte_below(usize::from(roles)));
        }
    }
}

/// The parts of a sheet that a plant draws: names and fresh names.
///
/// # Panics
///
/// If the sheet is refused.
#[must_use]
pub fn names(sheet: &[u8]) -> u16 {
    let kb = flatten(sheet).expect("a sheet without faults");
    let parts = kb.parts.iter().enumerate();
    let drawn = parts.filter(|(_, part)| matches!(part, Part::Name | Part::Fresh(_)));
    drawn.fold(0, |names, (part, _)| names | 1 << part)
}

/// A sheet whose parts and roles come to at most 7.
#[must_use]
pub fn small_sheet(turn: u64, random: &mut Random) -> Vec<u8> {
    let size = 1 + turn as usize / 2 % 7;
    match turn % 2 {
        0 => few_axioms::sheet(size, random),
        _ => made_up::small_sheet(size, random),
    }
}
