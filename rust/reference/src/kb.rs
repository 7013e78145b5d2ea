//! A sheet's bytes, checked and read into records.

use crate::fault::{Fault, Refusal};

const MAX_RECORDS: usize = 255;
const MAX_NAMES: u8 = 12;
const MAX_ROLES: u8 = 4;

/// Where a record's references stand, in bytes from its start.
const FIRST: usize = 1;
const SECOND: usize = 2;

/// One record. References are record numbers.
#[derive(Clone, Copy, PartialEq, Eq)]
pub(crate) enum Record {
    Top,
    Bottom,
    Name(u8),
    Not(u8),
    And(u8, u8),
    Or(u8, u8),
    /// An existential restriction: its role and its filler.
    Exists(u8, u8),
    /// A universal restriction: its role and its filler.
    Forall(u8, u8),
    Role(u8),
    Inverse(u8),
    RoleNot(u8),
    RoleAnd(u8, u8),
    RoleOr(u8, u8),
    /// Every first is second.
    Axiom(u8, u8),
    /// Wherever the first role holds, so does the second.
    Inclusion(u8, u8),
}

#[derive(Clone, Copy, PartialEq, Eq)]
enum Sort {
    Concept,
    Role,
    /// An axiom or a role inclusion.
    Axiom,
}

impl Record {
    fn sort(self) -> Sort {
        match self {
            Record::Role(_) | Record::Inverse(_) => Sort::Role,
            Record::RoleNot(_) | Record::RoleAnd(..) | Record::RoleOr(..) => Sort::Role,
            Record::Axiom(..) | Record::Inclusion(..) => Sort::Axiom,
            _ => Sort::Concept,
        }
    }

    /// May be named any number of times.
    fn is_shared(self) -> bool {
        matches!(
            self,
            Record::Top | Record::Bottom | Record::Name(_) | Record::Role(_) | Record::Inverse(_)
        )
    }
}

/// A fault of one record, and where it stands, in bytes from the record's start.
struct Misread {
    fault: Fault,
    offset: usize,
}

/// A fault of the record as a whole.
impl From<Fault> for Misread {
    fn from(fault: Fault) -> Self {
        Misread { fault, offset: 0 }
    }
}

#[derive(Clone, Copy)]
struct Entry {
    record: Record,
    named: bool,
}

/// Stands where no record was read. A record with a full body, so that the
/// table is filled in whole words.
const UNREAD: Entry = Entry {
    record: Record::And(0, 0),
    named: false,
};

/// A knowledge base: the records of a sheet without a faulty record.
pub(crate) struct Kb {
    /// One entry for each byte value, so that a reference is always in range.
    entries: [Entry; 256],
    /// The roles that hold on the empty role set.
    hold_on_empty: [bool; 256],
    len: usize,
    names: u8,
    roles: u8,
}

impl Kb {
    pub(crate) fn empty() -> Self {
        Kb {
            entries: [UNREAD; 256],
            hold_on_empty: [false; 256],
            len: 0,
            names: 0,
            roles: 0,
        }
    }

    /// Adds the records of a sheet.
    pub(crate) fn read(&mut self, sheet: &[u8]) -> Result<(), Refusal> {
        let mut rest = sheet;
        while let Some((&kind, body)) = rest.split_first() {
            let start = sheet.len() - rest.len();
            rest = self
                .push(kind, body)
                .map_err(|Misread { fault, offset }| Refusal::at(start + offset, fault))?;
        }
        Ok(())
    }

    /// One more than the largest number of a concept name, or 0.
    pub(crate) fn names(&self) -> u8 {
        self.names
    }

    /// One more than the largest number of a role, or 0.
    pub(crate) fn roles(&self) -> u8 {
        self.roles
    }

    pub(crate) fn record(&self, number: u8) -> Record {
        self.entries[usize::from(number)].record
    }

    /// Whether two roles are written alike: the same tree, whatever the records.
    pub(crate) fn are_alike(&self, u: u8, v: u8) -> bool {
        match (self.record(u), self.record(v)) {
            (Record::RoleNot(u), Record::RoleNot(v)) => self.are_alike(u, v),
            (Record::RoleAnd(u, more_u), Record::RoleAnd(v, more_v))
            | (Record::RoleOr(u, more_u), Record::RoleOr(v, more_v)) => {
                self.are_alike(u, v) && self.are_alike(more_u, more_v)
            }
            // Leaves, or roles of different kinds.
            (u, v) => u == v,
        }
    }

    /// The two sides of each axiom, in the sheet's order.
    pub(crate) fn axioms(&self) -> impl Iterator<Item = (u8, u8)> + '_ {
        self.entries[..self.len]
            .iter()
            .filter_map(|entry| match entry.record {
                Record::Axiom(left, right) => Some((left, right)),
                _ => None,
            })
    }

    /// Reads one record; answers the bytes after it.
    fn push<'a>(&mut self, kind: u8, body: &'a [u8]) -> Result<&'a [u8], Misread> {
        if self.len == MAX_RECORDS {
            return Err(Fault::TooManyRecords.into());
        }
        let (record, rest) = self.decode(kind, body)?;
        self.entries[self.len].record = record;
        self.len += 1;
        Ok(rest)
    }

    /// The record of a kind, its body taken from `body`; answers also what
    /// follows the body.
    fn decode<'a>(&mut self, kind: u8, body: &'a [u8]) -> Result<(Record, &'a [u8]), Misread> {
        match kind {
            0x01 => Ok((Record::Top, body)),
            0x02 => Ok((Record::Bottom, body)),
            0x03 => self.name(body),
            0x04 => self.not(body),
            0x05 => self.of_concepts(body, Record::And),
            0x06 => self.of_concepts(body, Record::Or),
            0x07 => self.restriction(body, Record::Exists),
            0x08 => self.restriction(body, Record::Forall),
            0x10 => self.role_name(body, Record::Role),
            0x11 => self.role_name(body, Record::Inverse),
            0x12 => self.role_not(body),
            0x13 => self.boolean_role(body, Record::RoleAnd, |u, v| u && v),
            0x14 => self.boolean_role(body, Record::RoleOr, |u, v| u || v),
            0x20 => self.of_concepts(body, Record::Axiom),
            0x21 => self.inclusion(body),
            _ => Err(Fault::UnknownKind.into()),
        }
    }

    fn name<'a>(&mut self, body: &'a [u8]) -> Result<(Record, &'a [u8]), Misread> {
        let (number, rest) = number(body, MAX_NAMES)?;
        self.names = self.names.max(number + 1);
        Ok((Record::Name(number), rest))
    }

    /// A role name or its inverse.
    fn role_name<'a>(
        &mut self,
        body: &'a [u8],
        record: impl Fn(u8) -> Record,
    ) -> Result<(Record, &'a [u8]), Misread> {
        let (number, rest) = number(body, MAX_ROLES)?;
        self.roles = self.roles.max(number + 1);
        Ok((record(number), rest))
    }

    fn not<'a>(&mut self, body: &'a [u8]) -> Result<(Record, &'a [u8]), Misread> {
        let (&[c], rest) = take(body)?;
        self.refer_to(FIRST, c, Sort::Concept)?;
        Ok((Record::Not(c), rest))
    }

    /// A record of two concepts.
    fn of_concepts<'a>(
        &mut self,
        body: &'a [u8],
        record: impl Fn(u8, u8) -> Record,
    ) -> Result<(Record, &'a [u8]), Misread> {
        let (&[c, d], rest) = take(body)?;
        self.refer_to(FIRST, c, Sort::Concept)?;
        self.refer_to(SECOND, d, Sort::Concept)?;
        Ok((record(c, d), rest))
    }

    fn role_not<'a>(&mut self, body: &'a [u8]) -> Result<(Record, &'a [u8]), Misread> {
        let (&[u], rest) = take(body)?;
        self.refer_to(FIRST, u, Sort::Role)?;
        self.hold_on_empty[self.len] = !self.holds_on_empty(u);
        Ok((Record::RoleNot(u), rest))
    }

    /// A role of two, and when it holds.
    fn boolean_role<'a>(
        &mut self,
        body: &'a [u8],
        record: impl Fn(u8, u8) -> Record,
        holds: impl Fn(bool, bool) -> bool,
    ) -> Result<(Record, &'a [u8]), Misread> {
        let (&[u, v], rest) = take(body)?;
        self.refer_to(FIRST, u, Sort::Role)?;
        self.refer_to(SECOND, v, Sort::Role)?;
        self.hold_on_empty[self.len] = holds(self.holds_on_empty(u), self.holds_on_empty(v));
        Ok((record(u, v), rest))
    }

    fn restriction<'a>(
        &mut self,
        body: &'a [u8],
        record: impl Fn(u8, u8) -> Record,
    ) -> Result<(Record, &'a [u8]), Misread> {
        let (&[role, filler], rest) = take(body)?;
        self.refer_to(FIRST, role, Sort::Role)?;
        self.refer_to(SECOND, filler, Sort::Concept)?;
        if self.holds_on_empty(role) {
            return Err(Fault::HoldsOnEmptySet.into());
        }
        Ok((record(role, filler), rest))
    }

    fn inclusion<'a>(&mut self, body: &'a [u8]) -> Result<(Record, &'a [u8]), Misread> {
        let (&[first, second], rest) = take(body)?;
        self.refer_to(FIRST, first, Sort::Role)?;
        self.refer_to(SECOND, second, Sort::Role)?;
        if self.holds_on_empty(first) {
            return Err(Fault::HoldsOnEmptySet.into());
        }
        Ok((Record::Inclusion(first, second), rest))
    }

    /// Checks and notes that the record being read names `target`, by the
    /// reference at `offset`.
    fn refer_to(&mut self, offset: usize, target: u8, wanted: Sort) -> Result<(), Misread> {
        self.note_naming(target, wanted)
            .map_err(|fault| Misread { fault, offset })
    }

    /// Checks that `target` may be named where that sort is wanted, and notes it.
    fn note_naming(&mut self, target: u8, wanted: Sort) -> Result<(), Fault> {
        let target = usize::from(target);
        if target >= self.len {
            return Err(Fault::NotEarlier);
        }
        let entry = &mut self.entries[target];
        match entry.record.sort() {
            Sort::Axiom => return Err(Fault::AxiomNamed),
            Sort::Role if wanted == Sort::Concept => return Err(Fault::RoleForConcept),
            Sort::Concept if wanted == Sort::Role => return Err(Fault::ConceptForRole),
            Sort::Concept | Sort::Role => {}
        }
        if entry.named && !entry.record.is_shared() {
            return Err(Fault::NamedTwice);
        }
        entry.named = true;
        Ok(())
    }

    /// Whether a role holds on the empty role set.
    fn holds_on_empty(&self, role: u8) -> bool {
        self.hold_on_empty[usize::from(role)]
    }
}

/// The first `N` bytes of a body, and what follows them.
fn take<const N: usize>(body: &[u8]) -> Result<(&[u8; N], &[u8]), Fault> {
    body.split_first_chunk().ok_or(Fault::CutOff)
}

/// A body of one number below `limit`.
fn number(body: &[u8], limit: u8) -> Result<(u8, &[u8]), Fault> {
    let (&[number], rest) = take(body)?;
    if number >= limit {
        return Err(Fault::NumberTooLarge);
    }
    Ok((number, rest))
}
