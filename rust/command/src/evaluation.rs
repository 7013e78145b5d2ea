//! What a drawn plant breaks of a sheet as written, worked out here and not in
//! the proved library: Table 1 of document 002, evaluated as it stands.

#[cfg(test)]
mod tests;

use crate::parts::{Part, PartKind};
use crate::plant::Plant;
use crate::tree::Tree;
use std::rc::Rc;

/// The records of the axioms that do not hold of an item, of the trees of a
/// sheet's records.
#[must_use]
pub fn broken_axioms(trees: &[Rc<Tree>], plant: &Plant, item: usize) -> Vec<usize> {
    let broken = |tree: &Tree| match tree {
        Tree::Axiom(c, d) => extension(c, plant)[item] && !extension(d, plant)[item],
        _ => false,
    };
    let records = (0..).zip(trees).filter(|(_, tree)| broken(tree));
    records.map(|(record, _)| record).collect()
}

/// The records of the role inclusions that do not hold on a role set.
#[must_use]
pub fn broken_inclusions(trees: &[Rc<Tree>], roles: u8) -> Vec<usize> {
    let broken = |tree: &Tree| match tree {
        Tree::Inclusion(u, v) => role_holds(u, roles) && !role_holds(v, roles),
        _ => false,
    };
    let records = (0..).zip(trees).filter(|(_, tree)| broken(tree));
    records.map(|(record, _)| record).collect()
}

/// Whether a role expression holds on a role set. A concept holds on none.
fn role_holds(role: &Tree, roles: u8) -> bool {
    match role {
        Tree::Role(number) => roles >> (2 * number) & 1 == 1,
        Tree::Inverse(number) => roles >> (2 * number + 1) & 1 == 1,
        Tree::Not(u) => !role_holds(u, roles),
        Tree::And(u, v) => role_holds(u, roles) && role_holds(v, roles),
        Tree::Or(u, v) => role_holds(u, roles) || role_holds(v, roles),
        _ => false,
    }
}

/// Of each item of a plant, whether a concept holds of it. A role holds of none.
fn extension(concept: &Tree, plant: &Plant) -> Vec<bool> {
    let of = |concept: &Tree| extension(concept, plant);
    match concept {
        Tree::Top => vec![true; plant.len()],
        Tree::Name(number) => {
            let has = |item| plant.has(item, usize::from(*number));
            (0..plant.len()).map(has).collect()
        }
        Tree::Not(c) => of(c).into_iter().map(|holds| !holds).collect(),
        Tree::And(c, d) => both(&of(c), &of(d), |c, d| c && d),
        Tree::Or(c, d) => both(&of(c), &of(d), |c, d| c || d),
        Tree::Exists(u, c) => {
            let (joined, filler) = (Joined::by(u, plant), of(c));
            let some = |item| joined.to(item).any(|other| filler[other]);
            (0..plant.len()).map(some).collect()
        }
        Tree::Forall(u, c) => {
            let (joined, filler) = (Joined::by(u, plant), of(c));
            let only = |item| joined.to(item).all(|other| filler[other]);
            (0..plant.len()).map(only).collect()
        }
        _ => vec![false; plant.len()],
    }
}

fn both(c: &[bool], d: &[bool], holds: fn(bool, bool) -> bool) -> Vec<bool> {
    c.iter().zip(d).map(|(&c, &d)| holds(c, d)).collect()
}

/// Which items a role expression joins.
struct Joined<'a> {
    /// By role set: whether it holds there.
    on: Vec<bool>,
    plant: &'a Plant,
}

impl<'a> Joined<'a> {
    fn by(role: &Tree, plant: &'a Plant) -> Self {
        let on = (0..=u8::MAX).map(|roles| role_holds(role, roles));
        Joined {
            on: on.collect(),
            plant,
        }
    }

    /// The items that it joins one to.
    fn to(&self, item: usize) -> impl Iterator<Item = usize> + '_ {
        let on = move |&other: &usize| self.on[usize::from(self.plant.roles(item, other))];
        (0..self.plant.len()).filter(on)
    }
}

/// A fresh name that is drawn of items of which its filler does not hold, or is
/// not drawn of items of which it does.
#[derive(Clone, Debug, PartialEq, Eq)]
pub struct Misdrawn {
    /// The part.
    pub mark: usize,
    pub drawn: bool,
    pub items: Vec<usize>,
}

/// The fresh names by whose drawing an item may break a flattened axiom: drawn of
/// the item itself, of which the filler does not hold; or not drawn of items of
/// which it does, and for want of that a restriction that holds of the item is not
/// in its label. An item that breaks a flattened axiom, but no axiom as written,
/// has one.
#[must_use]
pub fn misdrawn(parts: &[Part], plant: &Plant, item: usize) -> Vec<Misdrawn> {
    let mut misdrawn = Vec::new();
    // the part of a filler stands behind that of its restriction
    for (mark, pair) in (1..).zip(parts.windows(2)) {
        if pair[1].kind == PartKind::Fresh {
            let fresh = Fresh::of(mark, &pair[0].tree, &pair[1].tree, plant);
            misdrawn.extend(fresh.in_excess(item));
            misdrawn.extend(fresh.wanting(item));
        }
    }
    misdrawn
}

/// A fresh name.
struct Fresh<'a> {
    mark: usize,
    /// Whether its restriction is existential.
    exists: bool,
    joined: Joined<'a>,
    /// Of each item, whether the filler holds of it.
    filler: Vec<bool>,
}

impl<'a> Fresh<'a> {
    fn of(mark: usize, restriction: &Tree, filler: &Tree, plant: &'a Plant) -> Self {
        let (exists, role) = match restriction {
            Tree::Exists(u, _) => (true, u),
            Tree::Forall(u, _) => (false, u),
            _ => panic!("the library lists a fresh name behind its restriction"),
        };
        Fresh {
            mark,
            exists,
            joined: Joined::by(role, plant),
            filler: extension(filler, plant),
        }
    }

    fn is_drawn(&self, item: usize) -> bool {
        self.joined.plant.has(item, self.mark)
    }

    /// Whether the restriction is in the label of an item, by which items have
    /// the filler.
    fn restricts(&self, item: usize, has: impl Fn(usize) -> bool) -> bool {
        let mut joined = self.joined.to(item);
        match self.exists {
            true => joined.any(has),
            false => joined.all(has),
        }
    }

    /// It is drawn of an item, of which the filler does not hold.
    fn in_excess(&self, item: usize) -> Option<Misdrawn> {
        let excess = self.is_drawn(item) && !self.filler[item];
        excess.then(|| self.misdrawn(true, vec![item]))
    }

    /// The restriction holds of an item, but is not in its label, since the fresh
    /// name is not drawn of others.
    fn wanting(&self, item: usize) -> Option<Misdrawn> {
        let holds = self.restricts(item, |other| self.filler[other]);
        let is_in_label = self.restricts(item, |other| self.is_drawn(other));
        let is_wanting = |other: &usize| self.filler[*other] && !self.is_drawn(*other);
        let wanting = || self.joined.to(item).filter(is_wanting).collect();
        (holds && !is_in_label).then(|| self.misdrawn(false, wanting()))
    }

    fn misdrawn(&self, drawn: bool, items: Vec<usize>) -> Misdrawn {
        Misdrawn {
            mark: self.mark,
            drawn,
            items,
        }
    }
}
