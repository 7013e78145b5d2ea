//! A knowledge base as written: its axioms and role inclusions as trees of
//! concepts and roles.

use crate::fault::Refusal;
use crate::kb::Kb;
use std::rc::Rc;

/// A role expression.
#[derive(Clone, Debug, PartialEq, Eq)]
pub enum Role {
    /// A role name.
    Name(usize),
    /// The inverse of a role name (document 01: a link reversed).
    Inverse(usize),
    Not(Rc<Role>),
    And(Rc<Role>, Rc<Role>),
    Or(Rc<Role>, Rc<Role>),
}

/// A concept expression (document 01: class).
#[derive(Clone, Debug, PartialEq, Eq)]
pub enum Concept {
    Top,
    Bottom,
    Name(usize),
    Not(Rc<Concept>),
    And(Rc<Concept>, Rc<Concept>),
    Or(Rc<Concept>, Rc<Concept>),
    /// An existential restriction (document 01: some).
    Exists(Rc<Role>, Rc<Concept>),
    /// A universal restriction (document 01: only).
    Forall(Rc<Role>, Rc<Concept>),
}

/// A general concept inclusion: every `left` is a `right` (document 01: rule).
#[derive(Clone, Debug, PartialEq, Eq)]
pub struct Axiom {
    pub left: Rc<Concept>,
    pub right: Rc<Concept>,
}

/// A role inclusion: wherever `first` holds between two, so does `second`
/// (document 02: kind 21).
#[derive(Clone, Debug, PartialEq, Eq)]
pub struct Inclusion {
    pub first: Rc<Role>,
    pub second: Rc<Role>,
}

/// The tree of one record.
#[derive(Clone, Debug, PartialEq, Eq)]
enum Tree {
    Concept(Rc<Concept>),
    Role(Rc<Role>),
    /// Of an axiom or a role inclusion: never named.
    Axiom,
}

/// The trees of a sheet.
#[derive(Clone, Debug, Default)]
pub struct Written {
    /// By record number.
    trees: Vec<Tree>,
    /// In the sheet's order.
    pub axioms: Vec<Axiom>,
    /// The byte where the record of each axiom starts.
    pub starts: Vec<usize>,
    /// In the sheet's order.
    pub inclusions: Vec<Inclusion>,
    /// The byte where the record of each inclusion starts.
    pub inclusion_starts: Vec<usize>,
}

impl Written {
    /// Reads a sheet.
    ///
    /// # Errors
    ///
    /// Refusals 1 to 8, 16 and 17.
    pub fn read(sheet: &[u8]) -> Result<Self, Refusal> {
        Kb::empty().read(sheet)?;
        let mut written = Written::default();
        let mut rest = sheet.iter().copied();
        while let Some(kind) = rest.next() {
            let start = sheet.len() - rest.len() - 1;
            written.add(kind, start, &mut rest);
        }
        Ok(written)
    }

    /// Adds the record that starts at a byte, its body taken from `rest`.
    fn add(&mut self, kind: u8, start: usize, rest: &mut impl Iterator<Item = u8>) {
        let mut next = || usize::from(rest.next().expect("a whole body"));
        let tree = match kind {
            0x01 => concept(Concept::Top),
            0x02 => concept(Concept::Bottom),
            0x03 => concept(Concept::Name(next())),
            0x04 => concept(Concept::Not(self.concept(next()))),
            0x05 => concept(Concept::And(self.concept(next()), self.concept(next()))),
            0x06 => concept(Concept::Or(self.concept(next()), self.concept(next()))),
            0x07 => concept(Concept::Exists(self.role(next()), self.concept(next()))),
            0x08 => concept(Concept::Forall(self.role(next()), self.concept(next()))),
            0x10 => role(Role::Name(next())),
            0x11 => role(Role::Inverse(next())),
            0x12 => role(Role::Not(self.role(next()))),
            0x13 => role(Role::And(self.role(next()), self.role(next()))),
            0x14 => role(Role::Or(self.role(next()), self.role(next()))),
            0x20 => {
                let (left, right) = (self.concept(next()), self.concept(next()));
                self.axioms.push(Axiom { left, right });
                self.starts.push(start);
                Tree::Axiom
            }
            _ => {
                let (first, second) = (self.role(next()), self.role(next()));
                self.inclusions.push(Inclusion { first, second });
                self.inclusion_starts.push(start);
                Tree::Axiom
            }
        };
        self.trees.push(tree);
    }

    /// The concept of that record.
    ///
    /// # Panics
    ///
    /// If it is none.
    #[must_use]
    pub fn concept(&self, number: usize) -> Rc<Concept> {
        match &self.trees[number] {
            Tree::Concept(concept) => Rc::clone(concept),
            _ => unreachable!("a concept is named"),
        }
    }

    /// The role of that record.
    ///
    /// # Panics
    ///
    /// If it is none.
    #[must_use]
    pub fn role(&self, number: usize) -> Rc<Role> {
        match &self.trees[number] {
            Tree::Role(role) => Rc::clone(role),
            _ => unreachable!("a role is named"),
        }
    }
}

fn concept(concept: Concept) -> Tree {
    Tree::Concept(Rc::new(concept))
}

fn role(role: Role) -> Tree {
    Tree::Role(Rc::new(role))
}
