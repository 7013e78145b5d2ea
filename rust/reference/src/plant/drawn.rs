//! A drawn plant: what holds of its individuals and pairs, one by one.

use super::file::File;
use super::PlantCheck;
use crate::conditions::holds_on;
use crate::domino::Domino;
use crate::flat::{FlatKb, Part, Restriction};

/// All that breaks, in order.
#[derive(Clone, Debug, PartialEq, Eq)]
pub struct Breaches {
    /// The individuals of which a flattened axiom does not hold.
    pub individuals: Vec<usize>,
    /// The ordered pairs of which a role inclusion does not hold.
    pub pairs: Vec<(usize, usize)>,
}

impl Breaches {
    /// An individual's come before a pair's.
    #[must_use]
    pub fn first(&self) -> PlantCheck {
        match (self.individuals.first(), self.pairs.first()) {
            (Some(&x), _) => PlantCheck::Item(x),
            (None, Some(&(x, y))) => PlantCheck::Pair(x, y),
            (None, None) => PlantCheck::Holds,
        }
    }
}

pub(super) struct Drawn<'a> {
    kb: &'a FlatKb,
    /// By individual: its names and fresh names, as drawn.
    bits: Vec<u64>,
    /// The roles from x to y, at x × individuals + y.
    role_sets: Vec<u8>,
    /// By individual: all its parts.
    labels: Vec<u64>,
}

impl<'a> Drawn<'a> {
    pub fn new(kb: &'a FlatKb, file: File) -> Self {
        let size = file.individuals.len();
        let mut role_sets = vec![0; size * size];
        for connection in file.connections {
            let [from, to] = [connection.from, connection.to].map(usize::from);
            role_sets[from * size + to] |= 1 << (2 * connection.role);
            role_sets[to * size + from] |= 1 << (2 * connection.role + 1);
        }
        let mut drawn = Drawn {
            kb,
            bits: file.individuals,
            role_sets,
            labels: Vec::new(),
        };
        drawn.labels = drawn.individuals().map(|x| drawn.label(x)).collect();
        drawn
    }

    fn individuals(&self) -> std::ops::Range<usize> {
        0..self.bits.len()
    }

    /// All ordered pairs, by the first and then by the second.
    fn pairs(&self) -> impl Iterator<Item = (usize, usize)> + '_ {
        let second = |x| self.individuals().map(move |y| (x, y));
        self.individuals().flat_map(second)
    }

    /// The roles from one individual to another.
    fn roles(&self, x: usize, y: usize) -> u64 {
        self.role_sets[x * self.bits.len() + y].into()
    }

    fn label(&self, x: usize) -> u64 {
        let mut label = 0;
        for (number, part) in self.kb.parts.iter().enumerate() {
            let holds = match part {
                Part::Name | Part::Fresh(_) => self.bits[x] >> number & 1 == 1,
                Part::Exists(restriction) => self.exists(x, restriction),
                Part::Forall(restriction) => self.forall(x, restriction),
            };
            label |= u64::from(holds) << number;
        }
        label
    }

    fn exists(&self, x: usize, restriction: &Restriction) -> bool {
        let Restriction { role, filler } = restriction;
        self.individuals()
            .any(|y| holds_on(role, self.roles(x, y)) && filler.is_in(self.bits[y]))
    }

    fn forall(&self, x: usize, restriction: &Restriction) -> bool {
        let Restriction { role, filler } = restriction;
        self.individuals()
            .all(|y| !holds_on(role, self.roles(x, y)) || filler.is_in(self.bits[y]))
    }

    /// The domino of each ordered pair.
    pub fn dominoes(&self) -> impl Iterator<Item = Domino> + '_ {
        self.pairs().map(|(x, y)| Domino {
            left: self.labels[x],
            roles: self.roles(x, y),
            right: self.labels[y],
        })
    }

    pub fn breaches(&self) -> Breaches {
        let breaks = |x: &usize| {
            let mut axioms = self.kb.axioms.iter();
            !axioms.all(|axiom| axiom.holds(self.labels[*x]))
        };
        let pair_breaks = |&(x, y): &(usize, usize)| {
            let roles = self.roles(x, y);
            let mut inclusions = self.kb.inclusions.iter();
            !inclusions.all(|i| !holds_on(&i.first, roles) || holds_on(&i.second, roles))
        };
        Breaches {
            individuals: self.individuals().filter(breaks).collect(),
            pairs: self.pairs().filter(pair_breaks).collect(),
        }
    }
}
