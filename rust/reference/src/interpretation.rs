//! Finite interpretations and what holds in them, by 002's Table 1, of a
//! knowledge base as written.

use crate::domino::Domino;
use crate::fault::Refusal;
use crate::written::{Concept, Role, Written};
use crate::{list_marks, read};

/// Individuals, by number.
type Individuals = Vec<bool>;

/// Ordered pairs, by the first and then by the second.
type Pairs = Vec<bool>;

/// Which individuals each name has, and which pairs each role joins.
#[derive(Clone, Debug, PartialEq, Eq)]
pub struct Interpretation {
    individuals: usize,
    names: Vec<Individuals>,
    roles: Vec<Pairs>,
}

impl Interpretation {
    /// One in which nothing has a name and nothing is joined.
    #[must_use]
    pub fn of(individuals: usize, names: usize, roles: usize) -> Self {
        Interpretation {
            individuals,
            names: vec![vec![false; individuals]; names],
            roles: vec![vec![false; individuals * individuals]; roles],
        }
    }

    /// Gives an individual a name.
    pub fn give(&mut self, x: usize, name: usize) {
        self.names[name][x] = true;
    }

    /// Joins one individual to another by a role.
    pub fn join(&mut self, from: usize, to: usize, role: usize) {
        let pair = self.pair(from, to);
        self.roles[role][pair] = true;
    }

    /// The pairs that a role joins.
    fn role(&self, role: &Role) -> Pairs {
        match role {
            Role::Name(number) => self.roles[*number].clone(),
            Role::Inverse(number) => {
                let role = &self.roles[*number];
                let pairs = self.pairs();
                pairs.map(|(x, y)| role[self.pair(y, x)]).collect()
            }
            Role::Not(u) => not(self.role(u)),
            Role::And(u, v) => both(self.role(u), &self.role(v)),
            Role::Or(u, v) => either(self.role(u), &self.role(v)),
        }
    }

    /// The individuals of a concept.
    fn concept(&self, concept: &Concept) -> Individuals {
        match concept {
            Concept::Top => vec![true; self.individuals],
            Concept::Bottom => vec![false; self.individuals],
            Concept::Name(number) => self.names[*number].clone(),
            Concept::Not(c) => not(self.concept(c)),
            Concept::And(c, d) => both(self.concept(c), &self.concept(d)),
            Concept::Or(c, d) => either(self.concept(c), &self.concept(d)),
            Concept::Exists(u, c) => {
                let (role, filler) = (self.role(u), self.concept(c));
                self.with_some(|x, y| role[self.pair(x, y)] && filler[y])
            }
            Concept::Forall(u, c) => {
                let (role, filler) = (self.role(u), self.concept(c));
                self.with_each(|x, y| !role[self.pair(x, y)] || filler[y])
            }
        }
    }

    /// The individuals x of which a test holds with some y.
    fn with_some(&self, test: impl Fn(usize, usize) -> bool) -> Individuals {
        let numbers = 0..self.individuals;
        let some = |x| numbers.clone().any(|y| test(x, y));
        numbers.clone().map(some).collect()
    }

    /// The individuals x of which a test holds with each y.
    fn with_each(&self, test: impl Fn(usize, usize) -> bool) -> Individuals {
        let numbers = 0..self.individuals;
        let each = |x| numbers.clone().all(|y| test(x, y));
        numbers.clone().map(each).collect()
    }

    /// All ordered pairs, by the first and then by the second.
    fn pairs(&self) -> impl Iterator<Item = (usize, usize)> + '_ {
        (0..self.individuals).flat_map(|x| (0..self.individuals).map(move |y| (x, y)))
    }

    /// Where a pair stands among all.
    fn pair(&self, x: usize, y: usize) -> usize {
        x * self.individuals + y
    }

    /// The first individual of which an axiom as written does not hold.
    #[must_use]
    pub fn breaking_individual(&self, written: &Written) -> Option<usize> {
        let firsts = written.axioms.iter().filter_map(|axiom| {
            let right = self.concept(&axiom.right);
            first(&both(self.concept(&axiom.left), &not(right)))
        });
        firsts.min()
    }

    /// The first ordered pair of which a role inclusion does not hold.
    #[must_use]
    pub fn breaking_pair(&self, written: &Written) -> Option<(usize, usize)> {
        let firsts = written.inclusions.iter().filter_map(|inclusion| {
            let second = self.role(&inclusion.second);
            first(&both(self.role(&inclusion.first), &not(second)))
        });
        let pair = firsts.min()?;
        Some((pair / self.individuals, pair % self.individuals))
    }

    /// Whether it is a model: each axiom holds of each individual, each role
    /// inclusion of each ordered pair.
    #[must_use]
    pub fn satisfies(&self, written: &Written) -> bool {
        self.breaking_individual(written).is_none() && self.breaking_pair(written).is_none()
    }

    /// The label of each individual: a part that is listed counts as what its
    /// record is as written, or as the negation where that is read under an odd
    /// number of nots.
    ///
    /// # Errors
    ///
    /// The refusals of [`read`].
    pub fn labels(&self, sheet: &[u8]) -> Result<Vec<u64>, Refusal> {
        let written = Written::read(sheet)?;
        let mut list = vec![0; 3 * read(sheet)?.marks() as usize];
        list_marks(sheet, &mut list)?;
        let mut labels = vec![0; self.individuals];
        for (part, listed) in list.chunks_exact(3).enumerate() {
            let number = usize::from(listed[1]);
            let mut holds_of = match listed[0] {
                0 => self.names[number].clone(),
                _ => self.concept(&written.concept(number)),
            };
            if listed[2] == 1 {
                holds_of = not(holds_of);
            }
            for (label, holds) in labels.iter_mut().zip(holds_of) {
                *label |= u64::from(holds) << part;
            }
        }
        Ok(labels)
    }

    /// The domino of each ordered pair (document 01: a plant's pairings).
    ///
    /// # Errors
    ///
    /// The refusals of [`read`].
    pub fn dominoes(&self, sheet: &[u8]) -> Result<Vec<Domino>, Refusal> {
        let labels = self.labels(sheet)?;
        let dominoes = self.pairs().map(|(x, y)| Domino {
            left: labels[x],
            roles: self.role_set(x, y),
            right: labels[y],
        });
        Ok(dominoes.collect())
    }

    /// The roles that join one individual to another, and their inverses.
    fn role_set(&self, x: usize, y: usize) -> u64 {
        let mut roles = 0;
        for (number, pairs) in self.roles.iter().enumerate() {
            roles |= u64::from(pairs[self.pair(x, y)]) << (2 * number);
            roles |= u64::from(pairs[self.pair(y, x)]) << (2 * number + 1);
        }
        roles
    }
}

fn not(set: Vec<bool>) -> Vec<bool> {
    set.into_iter().map(|is_in| !is_in).collect()
}

fn both(set: Vec<bool>, other: &[bool]) -> Vec<bool> {
    let members = set.into_iter().zip(other);
    members
        .map(|(is_in, is_there)| is_in && *is_there)
        .collect()
}

fn either(set: Vec<bool>, other: &[bool]) -> Vec<bool> {
    let members = set.into_iter().zip(other);
    members
        .map(|(is_in, is_there)| is_in || *is_there)
        .collect()
}

/// The number of the first member.
fn first(set: &[bool]) -> Option<usize> {
    set.iter().position(|&is_in| is_in)
}
