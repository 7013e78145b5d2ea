//! Plants as they are drawn: made up, and each definition applied as it stands, for
//! one item or two at a time.

use comparison::plants::{Connection, Drawing};
use comparison::random::Random;
use reference::flat::{Filler, FlatKb, Formula, Normal, Part, Restriction};
use reference::written::{Axiom, Concept, Inclusion, Role};

/// A plant as it is drawn.
pub struct Drawn {
    pub plant: Drawing,
}

impl Drawn {
    /// A plant for a knowledge base: any, or one of which few or no items break a
    /// flattened axiom.
    pub fn any(kb: &FlatKb, random: &mut Random) -> Self {
        let mut drawn = Self::with_fillers(kb, random);
        for _ in 0..random.pick(&[0, 60]) {
            if !drawn.breaks_any(kb) {
                break;
            }
            drawn = Self::with_fillers(kb, random);
        }
        if random.one_in(2) {
            drawn.turn_fresh_bit(kb, random);
        }
        drawn
    }

    /// A plant with each fresh name drawn where its filler holds.
    fn with_fillers(kb: &FlatKb, random: &mut Random) -> Self {
        let count = 1 + random.below(4);
        let names = (1 << kb.names) - 1;
        let items = (0..count).map(|_| (random.word() as u16) & names);
        let mut plant = Drawing {
            individuals: items.collect(),
            connections: Vec::new(),
        };
        let connections = random.below(8);
        for _ in 0..if kb.roles == 0 { 0 } else { connections } {
            let [from, to] = [count; 2].map(|count| random.below(count));
            let role = random.below(kb.roles);
            plant.connections.push(Connection { from, to, role });
        }
        let mut drawn = Drawn { plant };
        let fresh = |item| drawn.fresh_bits(kb, item);
        let fresh: Vec<_> = (0..count).map(fresh).collect();
        for (item, fresh) in drawn.plant.individuals.iter_mut().zip(fresh) {
            *item |= fresh;
        }
        drawn
    }

    /// The fresh names whose fillers hold of an item.
    fn fresh_bits(&self, kb: &FlatKb, item: usize) -> u16 {
        let holds = |part: &Part| match part {
            Part::Fresh(filler) => self.normal(filler, item),
            _ => false,
        };
        let parts = kb.parts.iter().enumerate();
        let bits = parts.map(|(number, part)| u16::from(holds(part)) << number);
        bits.fold(0, |all, bit| all | bit)
    }

    /// Puts a fresh name into an item, or takes it out, if there is a fresh name.
    fn turn_fresh_bit(&mut self, kb: &FlatKb, random: &mut Random) {
        let parts = kb.parts.iter().enumerate();
        let fresh = parts.filter(|(_, part)| matches!(part, Part::Fresh(_)));
        let fresh: Vec<_> = fresh.map(|(number, _)| number).collect();
        if !fresh.is_empty() {
            let item = random.below(self.plant.len());
            self.plant.individuals[item] ^= 1 << random.pick(&fresh);
        }
    }

    /// Whether an item breaks a flattened axiom.
    fn breaks_any(&self, kb: &FlatKb) -> bool {
        let breaks = |item| kb.axioms.iter().any(|f| self.breaks_flattened(kb, f, item));
        (0..self.plant.len()).any(breaks)
    }

    pub fn has(&self, item: usize, part: usize) -> bool {
        self.plant.individuals[item] >> part & 1 == 1
    }

    /// The role set from one item to another.
    pub fn roles(&self, from: usize, to: usize) -> u64 {
        let mut roles = 0;
        for connection in &self.plant.connections {
            let (a, b, role) = (connection.from, connection.to, connection.role);
            roles |= u64::from((a, b) == (from, to)) << (2 * role);
            roles |= u64::from((b, a) == (from, to)) << (2 * role + 1);
        }
        roles
    }

    /// Whether a connection of that role goes from an item to an item.
    fn is_connected(&self, from: usize, to: usize, role: usize) -> bool {
        let connection = Connection { from, to, role };
        self.plant.connections.contains(&connection)
    }

    /// Whether a role expression joins two items.
    fn joins(&self, role: &Role, from: usize, to: usize) -> bool {
        match role {
            Role::Name(k) => self.is_connected(from, to, *k),
            Role::Inverse(k) => self.is_connected(to, from, *k),
            Role::Not(u) => !self.joins(u, from, to),
            Role::And(u, v) => self.joins(u, from, to) && self.joins(v, from, to),
            Role::Or(u, v) => self.joins(u, from, to) || self.joins(v, from, to),
        }
    }

    pub fn joined(&self, role: &Role, item: usize) -> Vec<usize> {
        let all = 0..self.plant.len();
        all.filter(|&other| self.joins(role, item, other)).collect()
    }

    /// Whether a concept as written holds of an item.
    fn concept(&self, concept: &Concept, item: usize) -> bool {
        match concept {
            Concept::Top => true,
            Concept::Bottom => false,
            Concept::Name(name) => self.has(item, *name),
            Concept::Not(c) => !self.concept(c, item),
            Concept::And(c, d) => self.concept(c, item) && self.concept(d, item),
            Concept::Or(c, d) => self.concept(c, item) || self.concept(d, item),
            Concept::Exists(u, c) => self.joined(u, item).iter().any(|&y| self.concept(c, y)),
            Concept::Forall(u, c) => self.joined(u, item).iter().all(|&y| self.concept(c, y)),
        }
    }

    /// Whether a concept in normal form holds of an item.
    pub fn normal(&self, concept: &Normal, item: usize) -> bool {
        match concept {
            Normal::Top => true,
            Normal::Bottom => false,
            Normal::Name(name) => self.has(item, *name),
            Normal::NotName(name) => !self.has(item, *name),
            Normal::And(c, d) => self.normal(c, item) && self.normal(d, item),
            Normal::Or(c, d) => self.normal(c, item) || self.normal(d, item),
            Normal::Exists(u, c) => self.joined(u, item).iter().any(|&y| self.normal(c, y)),
            Normal::Forall(u, c) => self.joined(u, item).iter().all(|&y| self.normal(c, y)),
        }
    }

    /// Whether an axiom as written does not hold of an item.
    pub fn breaks(&self, axiom: &Axiom, item: usize) -> bool {
        self.concept(&axiom.left, item) && !self.concept(&axiom.right, item)
    }

    /// Whether a role inclusion does not hold of two items.
    pub fn breaks_inclusion(&self, inclusion: &Inclusion, from: usize, to: usize) -> bool {
        self.joins(&inclusion.first, from, to) && !self.joins(&inclusion.second, from, to)
    }

    /// Whether the label of an item makes a flattened axiom false.
    pub fn breaks_flattened(&self, kb: &FlatKb, axiom: &Formula, item: usize) -> bool {
        !axiom.holds(self.label(kb, item))
    }

    fn has_filler(&self, filler: Filler, item: usize) -> bool {
        match filler {
            Filler::Top => true,
            Filler::Bottom => false,
            Filler::Part(part) => self.has(item, part),
        }
    }

    /// The label of an item: its bits, and the restrictions by the connections.
    pub fn label(&self, kb: &FlatKb, item: usize) -> u64 {
        let restricts = |part: &Part| match part {
            Part::Name | Part::Fresh(_) => false,
            Part::Exists(Restriction { role, filler }) => {
                let mut joined = self.joined(role, item).into_iter();
                joined.any(|other| self.has_filler(*filler, other))
            }
            Part::Forall(Restriction { role, filler }) => {
                let mut joined = self.joined(role, item).into_iter();
                joined.all(|other| self.has_filler(*filler, other))
            }
        };
        let parts = kb.parts.iter().enumerate();
        let restrictions = parts.map(|(number, part)| u64::from(restricts(part)) << number);
        restrictions.fold(self.plant.individuals[item].into(), |label, bit| {
            label | bit
        })
    }
}
