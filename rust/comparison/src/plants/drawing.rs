//! A drawn plant, and the orders in which its records may stand.

use crate::random::Random;
use reference::interpretation::Interpretation;
use reference::Counts;

pub const INDIVIDUAL: u8 = 0x40;
pub const CONNECTION: u8 = 0x41;

/// A role from one individual to another.
#[derive(Clone, Copy, Debug, PartialEq, Eq, PartialOrd, Ord)]
pub struct Connection {
    pub from: usize,
    pub to: usize,
    pub role: usize,
}

impl Connection {
    /// Its record.
    #[must_use]
    pub fn record(self) -> [u8; 6] {
        let [from, from_high] = (self.from as u16).to_le_bytes();
        let [to, to_high] = (self.to as u16).to_le_bytes();
        [CONNECTION, from, from_high, to, to_high, self.role as u8]
    }
}

/// The record of an individual with these names and fresh names.
#[must_use]
pub fn individual(bits: u16) -> [u8; 3] {
    let [low, high] = bits.to_le_bytes();
    [INDIVIDUAL, low, high]
}

/// Individuals with their names and fresh names, and connections.
#[derive(Clone, Debug, Default, PartialEq, Eq)]
pub struct Drawing {
    /// The bits of each.
    pub individuals: Vec<u16>,
    pub connections: Vec<Connection>,
}

impl Drawing {
    /// How many individuals there are.
    #[must_use]
    pub fn len(&self) -> usize {
        self.individuals.len()
    }

    #[must_use]
    pub fn is_empty(&self) -> bool {
        self.individuals.is_empty()
    }

    /// Adds the connections between two individuals that a role set says.
    pub fn connect(&mut self, x: usize, y: usize, roles: u64) {
        for role in 0..4 {
            if roles >> (2 * role) & 1 == 1 {
                self.connections.push(Connection {
                    from: x,
                    to: y,
                    role,
                });
            }
            if roles >> (2 * role + 1) & 1 == 1 && x != y {
                self.connections.push(Connection {
                    from: y,
                    to: x,
                    role,
                });
            }
        }
    }

    /// Puts another plant beside it, unconnected.
    pub fn put_beside(&mut self, other: &Drawing) {
        let before = self.len();
        self.individuals.extend(&other.individuals);
        let moved = other.connections.iter().map(|connection| Connection {
            from: before + connection.from,
            to: before + connection.to,
            ..*connection
        });
        self.connections.extend(moved);
    }

    /// The same plant with its individuals in any order.
    #[must_use]
    pub fn renumbered(&self, random: &mut Random) -> Self {
        let mut numbers: Vec<usize> = (0..self.len()).collect();
        random.shuffle(&mut numbers);
        let mut individuals = vec![0; self.len()];
        for (&number, &bits) in numbers.iter().zip(&self.individuals) {
            individuals[number] = bits;
        }
        let renumbered = self.connections.iter().map(|connection| Connection {
            from: numbers[connection.from],
            to: numbers[connection.to],
            ..*connection
        });
        Drawing {
            individuals,
            connections: renumbered.collect(),
        }
    }

    /// What it says of names and roles alone.
    #[must_use]
    pub fn interpretation(&self, counts: Counts) -> Interpretation {
        let [names, roles] = [counts.traits, counts.links].map(|count| count as usize);
        let mut interpretation = Interpretation::of(self.len(), names, roles);
        for (x, bits) in self.individuals.iter().enumerate() {
            for name in (0..names).filter(|name| bits >> name & 1 == 1) {
                interpretation.give(x, name);
            }
        }
        for connection in &self.connections {
            interpretation.join(connection.from, connection.to, connection.role);
        }
        interpretation
    }

    /// Its records: each individual, then each connection.
    #[must_use]
    pub fn records(&self) -> Vec<Vec<u8>> {
        let individuals = self.individuals.iter().map(|&bits| individual(bits).into());
        let connections = self.connections.iter();
        let connections = connections.map(|connection| connection.record().into());
        individuals.chain(connections).collect()
    }

    /// Its records with connections among the individuals, each after both of
    /// its own.
    fn mixed_records(&self, random: &mut Random) -> Vec<Vec<u8>> {
        let mut after = vec![Vec::new(); self.len()];
        for connection in &self.connections {
            let last = connection.from.max(connection.to);
            let place = match random.below(3) {
                0 => last,
                _ => last + random.below(self.len() - last),
            };
            after[place].push(connection.record());
        }
        let mut records = Vec::new();
        for (bits, mut connections) in self.individuals.iter().zip(after) {
            random.shuffle(&mut connections);
            records.push(individual(*bits).into());
            records.extend(connections.into_iter().map(Vec::from));
        }
        records
    }

    /// Its records in any order that may be; in a third of the files connections
    /// come more than once.
    #[must_use]
    pub fn any_records(&self, random: &mut Random) -> Vec<Vec<u8>> {
        let mut repeating = self.clone();
        if random.one_in(3) {
            for connection in &self.connections {
                let more = random.pick(&[0, 0, 0, 1, 1, 2]);
                repeating.connections.extend(vec![*connection; more]);
            }
        }
        match random.below(3) {
            0 => repeating.records(),
            1 => {
                random.shuffle(&mut repeating.connections);
                repeating.records()
            }
            _ => repeating.mixed_records(random),
        }
    }

    /// Its file, in any order that may be.
    #[must_use]
    pub fn file(&self, random: &mut Random) -> Vec<u8> {
        self.any_records(random).concat()
    }
}
