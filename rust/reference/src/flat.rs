//! The flattened knowledge base as trees, by document 01's list of rules.

use crate::domino::Shape;
use crate::fault::Refusal;
use crate::sharing::Sharing;
use crate::written::{Axiom, Concept, Inclusion, Role, Written};
use std::collections::VecDeque;
use std::rc::Rc;

/// What the restrictions of a flattened knowledge base are about.
#[derive(Clone, Copy, Debug, PartialEq, Eq)]
pub enum Filler {
    Top,
    Bottom,
    /// A concept name or fresh name, by its part.
    Part(usize),
}

impl Filler {
    /// Whether a label has it.
    #[must_use]
    pub fn is_in(self, label: u64) -> bool {
        match self {
            Filler::Top => true,
            Filler::Bottom => false,
            Filler::Part(part) => label >> part & 1 == 1,
        }
    }
}

/// A restriction: its role and its filler.
#[derive(Clone, Debug, PartialEq, Eq)]
pub struct Restriction {
    pub role: Rc<Role>,
    pub filler: Filler,
}

/// A part of the flattened knowledge base (document 01: mark).
#[derive(Clone, Debug, PartialEq, Eq)]
pub enum Part {
    Name,
    /// A fresh name, with the concept in normal form that it stands for.
    Fresh(Rc<Normal>),
    Exists(Restriction),
    Forall(Restriction),
}

/// A concept in negation normal form.
#[derive(Clone, Debug, PartialEq, Eq)]
pub enum Normal {
    Top,
    Bottom,
    Name(usize),
    NotName(usize),
    And(Rc<Normal>, Rc<Normal>),
    Or(Rc<Normal>, Rc<Normal>),
    Exists(Rc<Role>, Rc<Normal>),
    Forall(Rc<Role>, Rc<Normal>),
}

/// A flattened axiom: a Boolean expression over parts.
#[derive(Clone, Debug, PartialEq, Eq)]
pub enum Formula {
    True,
    False,
    Part(usize),
    NotPart(usize),
    And(Box<Formula>, Box<Formula>),
    Or(Box<Formula>, Box<Formula>),
}

impl Formula {
    /// Its truth where the parts in `label` are true and the others false.
    #[must_use]
    pub fn holds(&self, label: u64) -> bool {
        match self {
            Formula::True => true,
            Formula::False => false,
            Formula::Part(part) => label >> part & 1 == 1,
            Formula::NotPart(part) => label >> part & 1 == 0,
            Formula::And(f, g) => f.holds(label) && g.holds(label),
            Formula::Or(f, g) => f.holds(label) || g.holds(label),
        }
    }
}

/// A flattened knowledge base.
#[derive(Clone, Debug)]
pub struct FlatKb {
    /// One more than the largest number of a concept name, or 0.
    pub names: usize,
    /// One more than the largest number of a role, or 0.
    pub roles: usize,
    pub parts: Vec<Part>,
    pub axioms: Vec<Formula>,
    /// As written: flattening leaves them as they are.
    pub inclusions: Vec<Inclusion>,
}

impl FlatKb {
    /// The shape of its dominoes.
    #[must_use]
    pub fn shape(&self) -> Shape {
        Shape {
            parts: self.parts.len(),
            roles: self.roles,
        }
    }

    /// Whether the part of that number is a name or a fresh name, which is what a
    /// plant's individuals are drawn with.
    #[must_use]
    pub fn is_drawn(&self, part: usize) -> bool {
        matches!(self.parts.get(part), Some(Part::Name | Part::Fresh(_)))
    }
}

/// Reads and flattens a sheet.
///
/// # Errors
///
/// The refusals of [`read`](crate::read).
pub fn flatten(sheet: &[u8]) -> Result<FlatKb, Refusal> {
    flatten_by(sheet, Sharing::ByClaim)
}

/// Reads and flattens a sheet with a part for each occurrence.
///
/// # Errors
///
/// The refusals of [`apart::read`](crate::apart::read).
pub fn flatten_apart(sheet: &[u8]) -> Result<FlatKb, Refusal> {
    flatten_by(sheet, Sharing::Apart)
}

fn flatten_by(sheet: &[u8], sharing: Sharing) -> Result<FlatKb, Refusal> {
    let counts = crate::read_by(sheet, sharing)?;
    let written = Written::read(sheet)?;
    let names = counts.traits as usize;
    let mut flattening = Flattening {
        sharing,
        parts: vec![Part::Name; names],
        waiting: written.axioms.iter().map(Waiting::written).collect(),
    };
    let mut axioms = Vec::new();
    while let Some(next) = flattening.waiting.pop_front() {
        axioms.push(flattening.axiom(&next));
    }
    Ok(FlatKb {
        names,
        roles: counts.links as usize,
        parts: flattening.parts,
        axioms,
        inclusions: written.inclusions,
    })
}

/// An axiom in the list, in normal form.
struct Waiting {
    /// The fresh name F of an axiom (not F) or `concept`.
    fresh: Option<usize>,
    concept: Rc<Normal>,
}

impl Waiting {
    /// Every C is D: (not C) or D.
    fn written(axiom: &Axiom) -> Self {
        let concept = Normal::Or(negated(&axiom.left), plain(&axiom.right));
        Waiting {
            fresh: None,
            concept: Rc::new(concept),
        }
    }
}

struct Flattening {
    sharing: Sharing,
    parts: Vec<Part>,
    waiting: VecDeque<Waiting>,
}

impl Flattening {
    fn axiom(&mut self, next: &Waiting) -> Formula {
        let concept = self.formula(&next.concept);
        match next.fresh {
            None => concept,
            Some(part) => or(Formula::NotPart(part), concept),
        }
    }

    /// A concept with a part in place of each outermost restriction.
    fn formula(&mut self, concept: &Normal) -> Formula {
        match concept {
            Normal::Top => Formula::True,
            Normal::Bottom => Formula::False,
            Normal::Name(name) => Formula::Part(*name),
            Normal::NotName(name) => Formula::NotPart(*name),
            Normal::And(c, d) => {
                let c = self.formula(c);
                Formula::And(Box::new(c), Box::new(self.formula(d)))
            }
            Normal::Or(c, d) => {
                let c = self.formula(c);
                or(c, self.formula(d))
            }
            Normal::Exists(role, filler) => self.restriction(Part::Exists, role, filler),
            Normal::Forall(role, filler) => self.restriction(Part::Forall, role, filler),
        }
    }

    /// The part of a restriction: one that it shares, else the next, and the
    /// one after for its filler where that needs a fresh name.
    fn restriction(
        &mut self,
        part: fn(Restriction) -> Part,
        role: &Rc<Role>,
        filler: &Rc<Normal>,
    ) -> Formula {
        let next = self.parts.len();
        let (filler, fresh) = match **filler {
            Normal::Top => (Filler::Top, None),
            Normal::Bottom => (Filler::Bottom, None),
            Normal::Name(name) => (Filler::Part(name), None),
            // No part met so far has this filler.
            _ => (Filler::Part(next + 1), Some(filler)),
        };
        let role = Rc::clone(role);
        let restriction = part(Restriction { role, filler });
        let met = self.parts.iter().position(|met| *met == restriction);
        if let (Sharing::ByClaim, Some(met)) = (self.sharing, met) {
            return Formula::Part(met);
        }
        self.parts.push(restriction);
        if let Some(concept) = fresh {
            self.fresh(concept);
        }
        Formula::Part(next)
    }

    /// Gives a filler the next part, as a fresh name.
    fn fresh(&mut self, filler: &Rc<Normal>) {
        self.waiting.push_back(Waiting {
            fresh: Some(self.parts.len()),
            concept: Rc::clone(filler),
        });
        self.parts.push(Part::Fresh(Rc::clone(filler)));
    }
}

fn or(f: Formula, g: Formula) -> Formula {
    Formula::Or(Box::new(f), Box::new(g))
}

/// The normal form of a concept.
fn plain(concept: &Concept) -> Rc<Normal> {
    Rc::new(match concept {
        Concept::Top => Normal::Top,
        Concept::Bottom => Normal::Bottom,
        Concept::Name(name) => Normal::Name(*name),
        Concept::Not(c) => return negated(c),
        Concept::And(c, d) => Normal::And(plain(c), plain(d)),
        Concept::Or(c, d) => Normal::Or(plain(c), plain(d)),
        Concept::Exists(role, c) => Normal::Exists(Rc::clone(role), plain(c)),
        Concept::Forall(role, c) => Normal::Forall(Rc::clone(role), plain(c)),
    })
}

/// The normal form of a concept's negation.
fn negated(concept: &Concept) -> Rc<Normal> {
    Rc::new(match concept {
        Concept::Top => Normal::Bottom,
        Concept::Bottom => Normal::Top,
        Concept::Name(name) => Normal::NotName(*name),
        Concept::Not(c) => return plain(c),
        Concept::And(c, d) => Normal::Or(negated(c), negated(d)),
        Concept::Or(c, d) => Normal::And(negated(c), negated(d)),
        Concept::Exists(role, c) => Normal::Forall(Rc::clone(role), negated(c)),
        Concept::Forall(role, c) => Normal::Exists(Rc::clone(role), negated(c)),
    })
}
