//! The drawing of a program, with a slip or with none.

use super::slips::Slip;
use reference::domino::Domino;
use reference::flat::FlatKb;

pub(super) const INDIVIDUAL: u8 = 0x40;
const CONNECTION: u8 = 0x41;

/// From, to, and the role.
type Connection = (usize, usize, usize);

/// Survivors in layers, joined by the role set between each two individuals.
pub(super) struct Layers {
    slip: Option<Slip>,
    kb: FlatKb,
    survivors: Vec<Domino>,
    layers: usize,
}

impl Layers {
    pub fn of(slip: Option<Slip>, kb: FlatKb, judged: &[u64]) -> Self {
        let mut survivors: Vec<Domino> = kb.shape().members(judged).collect();
        match slip {
            Some(Slip::FirstLeftOut) => drop(survivors.remove(0)),
            Some(Slip::LastLeftOut) => drop(survivors.pop()),
            Some(Slip::FallingOrder) => survivors.reverse(),
            _ => {}
        }
        let layers = match slip {
            Some(Slip::TwoLayers) => 2,
            Some(Slip::FourLayers) => 4,
            _ => 3,
        };
        Layers {
            slip,
            kb,
            survivors,
            layers,
        }
    }

    fn has(&self, slip: Slip) -> bool {
        self.slip == Some(slip)
    }

    fn individuals(&self) -> std::ops::Range<usize> {
        0..self.layers * self.survivors.len()
    }

    fn layer(&self, x: usize) -> usize {
        match self.slip {
            Some(Slip::LayersByTurns) => x % self.layers,
            _ => x / self.survivors.len(),
        }
    }

    fn survivor(&self, x: usize) -> Domino {
        self.survivors[match self.slip {
            Some(Slip::LayersByTurns) => x / self.layers,
            _ => x % self.survivors.len(),
        }]
    }

    /// Whether the second individual is in the layer ahead of the first, and its
    /// survivor joins that of the first.
    fn joins(&self, x: usize, y: usize) -> bool {
        let (one, joining) = (self.survivor(x), self.survivor(y));
        let (layer, ahead) = (self.layer(x), self.layer(y));
        let is_ahead = match self.slip {
            Some(Slip::NoWayRound) => ahead == layer + 1,
            Some(Slip::WithinLayers) => ahead == layer,
            _ => ahead == (layer + 1) % self.layers,
        };
        is_ahead
            && match self.slip {
                Some(Slip::LeftWithLeft) => one.left == joining.left,
                Some(Slip::RightWithRight) => one.right == joining.right,
                Some(Slip::AnyLabels) => true,
                _ => one.right == joining.left,
            }
    }

    /// The roles between two individuals.
    fn role_set(&self, x: usize, y: usize) -> u64 {
        let of = |joined: usize, joining: usize| match self.slip {
            Some(Slip::RolesOfJoined) => self.survivor(joined),
            _ => self.survivor(joining),
        };
        if self.joins(x, y) {
            of(x, y).roles
        } else if !self.joins(y, x) || self.has(Slip::NoInverses) {
            0
        } else if self.has(Slip::NotInverted) {
            of(y, x).roles
        } else {
            of(y, x).converse().roles
        }
    }

    fn connections(&self) -> Vec<Connection> {
        let roles = self.kb.roles;
        let mut connections = Vec::new();
        for from in self.individuals() {
            for to in self.individuals() {
                let role_set = self.role_set(from, to);
                let has_role = |role: &usize| match self.slip {
                    Some(Slip::RolesInHalves) => role_set >> role & 1 == 1,
                    Some(Slip::LastRoleLeftOut) if *role + 1 == roles => false,
                    _ => role_set >> (2 * role) & 1 == 1,
                };
                connections.extend((0..roles).filter(has_role).map(|role| (from, to, role)));
            }
        }
        self.sort(&mut connections);
        connections
    }

    /// Leaves connections as they are but for a slip.
    fn sort(&self, connections: &mut [Connection]) {
        let is_later = |&(from, to, _): &Connection, layer: usize, ends: usize| {
            self.layer(from) == layer && self.layer(to) == ends
        };
        match self.slip {
            Some(Slip::ByToBeforeFrom) => {
                connections.sort_by_key(|&(from, to, role)| (to, from, role));
            }
            Some(Slip::ByRoleBeforeTo) => {
                connections.sort_by_key(|&(from, to, role)| (from, role, to));
            }
            Some(Slip::AheadFirstInMiddle) => {
                connections.sort_by_key(|joined| (joined.0, is_later(joined, 1, 0)));
            }
            Some(Slip::BackFirstInFirst) => {
                connections.sort_by_key(|joined| (joined.0, is_later(joined, 0, 1)));
            }
            Some(Slip::BackFirstInLast) => {
                connections.sort_by_key(|joined| (joined.0, is_later(joined, 2, 0)));
            }
            _ => {}
        }
    }

    fn individual(&self, x: usize) -> [u8; 3] {
        let Domino { left, right, .. } = self.survivor(x);
        let label = if self.has(Slip::LeftLabels) {
            left
        } else {
            right
        };
        let is_drawn = |&part: &usize| match self.slip {
            Some(Slip::WithRestrictions) => true,
            Some(Slip::WithoutFresh) => part < self.kb.names,
            _ => self.kb.is_drawn(part),
        };
        let parts = (0..self.kb.parts.len()).filter(is_drawn);
        let bits = parts.fold(0, |bits, part| bits | label & 1 << part);
        let [low, high] = (bits as u16).to_le_bytes();
        match self.slip {
            Some(Slip::NamesHighFirst) => [INDIVIDUAL, high, low],
            Some(Slip::NamesLowAlone) => [INDIVIDUAL, low, 0],
            _ => [INDIVIDUAL, low, high],
        }
    }

    fn connection(&self, &(from, to, role): &Connection) -> [u8; 6] {
        let [from, to] = [from, to].map(|number| {
            let [low, high] = (number as u16).to_le_bytes();
            match self.slip {
                Some(Slip::NumbersHighFirst) => [high, low],
                Some(Slip::NumbersLowAlone) => [low, 0],
                _ => [low, high],
            }
        });
        [CONNECTION, from[0], from[1], to[0], to[1], role as u8]
    }

    pub fn bytes(&self) -> Vec<u8> {
        let mut connections = self.connections();
        if self.has(Slip::Twice) {
            connections = connections.iter().flat_map(|&joined| [joined; 2]).collect();
        }
        let individuals = self.individuals().map(|x| (x, self.individual(x)));
        let mut bytes = Vec::new();
        if self.has(Slip::ConnectionsAmong) {
            for (x, individual) in individuals {
                bytes.extend(individual);
                let own = connections.iter().filter(|(from, ..)| *from == x);
                bytes.extend(own.flat_map(|joined| self.connection(joined)));
            }
            return bytes;
        }
        bytes.extend(individuals.flat_map(|(_, individual)| individual));
        bytes.extend(
            connections
                .iter()
                .flat_map(|joined| self.connection(joined)),
        );
        bytes
    }
}
