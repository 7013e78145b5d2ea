//! Negation normal form and flattening: the parts of a knowledge base.

use crate::fault::{Fault, Refusal};
use crate::kb::{Kb, Record};
use crate::sharing::Sharing;
use crate::Counts;

/// The most that parts and roles may come to together.
const MAX_PARTS_AND_ROLES: usize = 12;

pub(crate) const PART_BYTES: usize = 3;

#[derive(Clone, Copy, PartialEq, Eq)]
enum Kind {
    Name = 0,
    Fresh = 1,
    Exists = 2,
    Forall = 3,
}

/// A filler whose normal form needs no fresh name.
#[derive(Clone, Copy, PartialEq, Eq)]
enum Atom {
    Top,
    Bottom,
    Name(u8),
}

/// What a restriction with such a filler says, after normal form.
#[derive(Clone, Copy)]
struct Claim {
    kind: Kind,
    /// The number of a record; what counts is how the role is written.
    role: u8,
    filler: Atom,
}

/// A part of the flattened knowledge base (document 01: mark).
#[derive(Clone, Copy)]
pub(crate) struct Part {
    kind: Kind,
    /// A name's number; else the number of the record first met.
    number: u8,
    /// That record is read under an odd number of nots.
    negated: bool,
    /// What other occurrences may share; none for a name, a fresh name, and a
    /// restriction whose filler has a fresh name.
    claim: Option<Claim>,
}

impl Part {
    fn name(number: u8) -> Self {
        Part {
            kind: Kind::Name,
            number,
            negated: false,
            claim: None,
        }
    }

    pub(crate) fn to_bytes(self) -> [u8; PART_BYTES] {
        [self.kind as u8, self.number, u8::from(self.negated)]
    }
}

/// Parts in the order met.
pub(crate) struct Parts {
    list: [Part; MAX_PARTS_AND_ROLES],
    len: usize,
    limit: usize,
}

impl Parts {
    /// No parts, with room beside the roles.
    fn beside_roles(roles: u8) -> Self {
        Parts {
            list: [Part::name(0); MAX_PARTS_AND_ROLES],
            len: 0,
            limit: MAX_PARTS_AND_ROLES - usize::from(roles),
        }
    }

    pub(crate) fn as_slice(&self) -> &[Part] {
        &self.list[..self.len]
    }

    /// How many there are of each kind, beside so many roles.
    pub(crate) fn counts(&self, roles: u8) -> Counts {
        let mut counts = Counts {
            links: u64::from(roles),
            ..Counts::default()
        };
        for part in self.as_slice() {
            let count = match part.kind {
                Kind::Name => &mut counts.traits,
                Kind::Fresh => &mut counts.fresh,
                Kind::Exists => &mut counts.some,
                Kind::Forall => &mut counts.only,
            };
            *count += 1;
        }
        counts
    }

    fn push(&mut self, part: Part) -> Result<(), Fault> {
        if self.len == self.limit {
            return Err(Fault::TooManyParts);
        }
        self.list[self.len] = part;
        self.len += 1;
        Ok(())
    }
}

/// The parts of a knowledge base: its names, then what flattening meets.
pub(crate) fn flatten(kb: &Kb, sharing: Sharing) -> Result<Parts, Refusal> {
    let mut flattener = Flattener {
        kb,
        sharing,
        parts: Parts::beside_roles(kb.roles()),
    };
    flattener.run().map_err(Refusal::of_whole)?;
    Ok(flattener.parts)
}

struct Flattener<'a> {
    kb: &'a Kb,
    sharing: Sharing,
    parts: Parts,
}

impl Flattener<'_> {
    fn run(&mut self) -> Result<(), Fault> {
        for number in 0..self.kb.names() {
            self.parts.push(Part::name(number))?;
        }
        for (left, right) in self.kb.axioms() {
            self.negated(left)?;
            self.plain(right)?;
        }
        self.fresh_axioms()
    }

    /// The axioms (not F) or filler. The fresh names among the parts are the
    /// queue: each waits there until the fillers before it are done.
    fn fresh_axioms(&mut self) -> Result<(), Fault> {
        let mut next = 0;
        while let Some(&part) = self.parts.as_slice().get(next) {
            if part.kind == Kind::Fresh {
                self.concept(part.number, part.negated)?;
            }
            next += 1;
        }
        Ok(())
    }

    fn concept(&mut self, concept: u8, negated: bool) -> Result<(), Fault> {
        if negated {
            self.negated(concept)
        } else {
            self.plain(concept)
        }
    }

    /// Meets the outermost restrictions of a concept's normal form.
    fn plain(&mut self, concept: u8) -> Result<(), Fault> {
        match self.kb.record(concept) {
            Record::Not(c) => self.negated(c),
            Record::And(c, d) | Record::Or(c, d) => {
                self.plain(c)?;
                self.plain(d)
            }
            Record::Exists(u, c) => self.restriction(Kind::Exists, concept, (u, c), false),
            Record::Forall(u, c) => self.restriction(Kind::Forall, concept, (u, c), false),
            _ => Ok(()),
        }
    }

    /// Meets the outermost restrictions of the normal form of a concept's negation.
    fn negated(&mut self, concept: u8) -> Result<(), Fault> {
        match self.kb.record(concept) {
            Record::Not(c) => self.plain(c),
            Record::And(c, d) | Record::Or(c, d) => {
                self.negated(c)?;
                self.negated(d)
            }
            Record::Exists(u, c) => self.restriction(Kind::Forall, concept, (u, c), true),
            Record::Forall(u, c) => self.restriction(Kind::Exists, concept, (u, c), true),
            _ => Ok(()),
        }
    }

    /// Adds a restriction, and a fresh name for its filler where it needs one,
    /// unless it shares a part that is there.
    fn restriction(
        &mut self,
        kind: Kind,
        concept: u8,
        (role, filler): (u8, u8),
        negated: bool,
    ) -> Result<(), Fault> {
        let atom = self.atom(filler, negated);
        let claim = atom.map(|filler| Claim { kind, role, filler });
        if claim.is_some_and(|claim| self.is_shared(claim)) {
            return Ok(());
        }
        self.parts.push(Part {
            kind,
            number: concept,
            negated,
            claim,
        })?;
        if claim.is_some() {
            return Ok(());
        }
        self.parts.push(Part {
            kind: Kind::Fresh,
            number: filler,
            negated,
            claim: None,
        })
    }

    /// Whether a part that was met makes the same claim.
    fn is_shared(&self, claim: Claim) -> bool {
        let is_same = |met: Claim| {
            met.kind == claim.kind
                && met.filler == claim.filler
                && self.kb.are_alike(met.role, claim.role)
        };
        let mut claims = self.parts.as_slice().iter().filter_map(|part| part.claim);
        self.sharing == Sharing::ByClaim && claims.any(is_same)
    }

    /// The normal form, if it is a concept name, everything or nothing.
    fn atom(&self, concept: u8, negated: bool) -> Option<Atom> {
        match (self.kb.record(concept), negated) {
            (Record::Top, false) | (Record::Bottom, true) => Some(Atom::Top),
            (Record::Bottom, false) | (Record::Top, true) => Some(Atom::Bottom),
            (Record::Name(number), false) => Some(Atom::Name(number)),
            (Record::Not(c), _) => self.atom(c, !negated),
            _ => None,
        }
    }
}
