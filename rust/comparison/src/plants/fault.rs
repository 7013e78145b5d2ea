//! Files with a fault that is known.

use super::drawing::{individual, Connection, CONNECTION, INDIVIDUAL};
use super::ground::Ground;
use super::{made_up, MOST};
use crate::random::Random;
use std::ops::Range;

/// What is wrong with a file.
#[derive(Clone, Copy, Debug, PartialEq, Eq)]
pub enum Case {
    UnknownKind,
    /// An individual's record ends after so many bytes.
    CutIndividual(usize),
    /// A connection's does.
    CutConnection(usize),
    /// A kind is unknown, or a record cut off, where there are 1,024 individuals.
    UnknownKindPastLast,
    CutPastLast,
    /// A 1,025th individual, and one with a bit that may not be set.
    OneTooMany,
    OneTooManyWithBit,
    /// A bit of a restriction, and one past the last part.
    BitOfRestriction,
    BitPastLast,
    /// A connection from what is not there, to it, both, and by a role that is
    /// not there.
    From,
    To,
    Both,
    Role,
    /// The number just past the last one so far: of an individual, of a role.
    NextFrom,
    NextTo,
    NextRole,
    /// An individual that comes later in the file.
    Later,
    NoIndividuals,
}

impl Case {
    /// How many there are.
    pub const COUNT: usize = 23;

    /// All of them.
    pub const ALL: [Self; Self::COUNT] = [
        Case::UnknownKind,
        Case::CutIndividual(1),
        Case::CutIndividual(2),
        Case::CutConnection(1),
        Case::CutConnection(2),
        Case::CutConnection(3),
        Case::CutConnection(4),
        Case::CutConnection(5),
        Case::UnknownKindPastLast,
        Case::CutPastLast,
        Case::OneTooMany,
        Case::OneTooManyWithBit,
        Case::BitOfRestriction,
        Case::BitPastLast,
        Case::From,
        Case::To,
        Case::Both,
        Case::Role,
        Case::NextFrom,
        Case::NextTo,
        Case::NextRole,
        Case::Later,
        Case::NoIndividuals,
    ];

    /// Those of bits and roles, which go by the sheet.
    pub const OF_NUMBERS: [Self; 5] = [
        Case::OneTooManyWithBit,
        Case::BitOfRestriction,
        Case::BitPastLast,
        Case::Role,
        Case::NextRole,
    ];

    /// The number of its refusal.
    #[must_use]
    pub fn number(self) -> u64 {
        match self {
            Case::UnknownKind | Case::UnknownKindPastLast => 22,
            _ if self.is_cut() => 22,
            Case::OneTooMany | Case::OneTooManyWithBit => 23,
            Case::NoIndividuals => 25,
            _ => 24,
        }
    }

    /// Whether 1,024 individuals come before it.
    fn is_past_last(self) -> bool {
        use Case::{CutPastLast, OneTooMany, OneTooManyWithBit, UnknownKindPastLast};
        matches!(
            self,
            UnknownKindPastLast | CutPastLast | OneTooMany | OneTooManyWithBit
        )
    }

    /// Whether the file ends with it.
    fn is_cut(self) -> bool {
        use Case::{CutConnection, CutIndividual, CutPastLast};
        matches!(self, CutIndividual(_) | CutConnection(_) | CutPastLast)
    }
}

/// A file for a sheet whose first fault is that of the case; nothing if the sheet
/// leaves no room for it.
#[must_use]
pub fn faulty(ground: &Ground, case: Case, random: &mut Random) -> Option<Vec<u8>> {
    if case == Case::NoIndividuals {
        return Some(Vec::new());
    }
    let is_past_last = case.is_past_last();
    let drawing = if is_past_last {
        made_up::full(ground, random)
    } else {
        made_up::any(ground, 9, random)
    };
    let records = drawing.any_records(random);
    let at = if is_past_last {
        records.len()
    } else {
        random.below(records.len() + 1)
    };
    let so_far = records[..at].iter();
    let before = Before {
        ground,
        individuals: so_far.filter(|record| record[0] == INDIVIDUAL).count(),
        whole: drawing.len(),
    };
    let record = before.record(case, random)?;
    let mut file = [records[..at].concat(), record].concat();
    if !case.is_cut() {
        file.extend(after(&records[at..], random));
    }
    Some(file)
}

/// What comes after a faulty record: what would have come, anything, or nothing.
fn after(records: &[Vec<u8>], random: &mut Random) -> Vec<u8> {
    match random.below(4) {
        0 => Vec::new(),
        1 => {
            let length = random.below(9);
            random.bytes(length)
        }
        _ => records.concat(),
    }
}

/// What stands before a faulty record.
struct Before<'a> {
    ground: &'a Ground,
    /// How many individuals there are so far, and in the whole file.
    individuals: usize,
    whole: usize,
}

impl Before<'_> {
    fn record(&self, case: Case, random: &mut Random) -> Option<Vec<u8>> {
        let parts = self.ground.shape.parts;
        Some(match case {
            Case::UnknownKind | Case::UnknownKindPastLast => unknown(random),
            Case::CutIndividual(length) => Self::cut(INDIVIDUAL, length, random),
            Case::CutConnection(length) => Self::cut(CONNECTION, length, random),
            Case::CutPastLast => Self::cut(INDIVIDUAL, 1 + random.below(2), random),
            Case::OneTooMany => individual(self.bits(random)).into(),
            Case::OneTooManyWithBit => self.with_bit(0..16, random)?,
            Case::BitOfRestriction => self.with_bit(0..parts, random)?,
            Case::BitPastLast => self.with_bit(parts..16, random)?,
            _ => self.misjoined(case, random)?.record().into(),
        })
    }

    /// A connection of something that is not there, and of nothing else that is
    /// not.
    fn misjoined(&self, case: Case, random: &mut Random) -> Option<Connection> {
        let (next, roles) = (self.individuals, self.ground.shape.roles);
        let is_of_role = matches!(case, Case::Role | Case::NextRole);
        let needs_individual = case != Case::Both;
        if (roles == 0 && !is_of_role) || (next == 0 && needs_individual) {
            return None;
        }
        let there = Connection {
            from: random.below(next.max(1)),
            to: random.below(next.max(1)),
            role: random.below(roles.max(1)),
        };
        let [from, to] = match case {
            Case::Later if self.whole == next => return None,
            Case::Later => [next + random.below(self.whole - next); 2],
            Case::NextFrom | Case::NextTo => [next; 2],
            _ => [self.absent(random), self.absent(random)],
        };
        Some(match case {
            Case::From | Case::NextFrom => Connection { from, ..there },
            Case::To | Case::NextTo => Connection { to, ..there },
            Case::Later if random.one_in(2) => Connection { from, ..there },
            Case::Later => Connection { to, ..there },
            Case::Both => Connection { from, to, ..there },
            Case::NextRole => Connection {
                role: roles,
                ..there
            },
            _ => Connection {
                role: roles + random.below(256 - roles),
                ..there
            },
        })
    }

    /// The number of an individual that is not there: a near one, one whose low
    /// byte may be that of one that is, a large one.
    fn absent(&self, random: &mut Random) -> usize {
        match random.below(5) {
            0 => self.individuals + random.below(3),
            1 => self.individuals + random.below(MOST),
            2 => MOST + random.below(1 << 15),
            3 => usize::from(u16::MAX),
            _ => random.below(self.individuals.max(1)) + ((4 + random.below(200)) << 8),
        }
    }

    /// Bits that may be set.
    fn bits(&self, random: &mut Random) -> u16 {
        random.word() as u16 & self.ground.free
    }

    /// An individual with a bit that may not be set, if there is one among these.
    fn with_bit(&self, bits: Range<usize>, random: &mut Random) -> Option<Vec<u8>> {
        let bad = bits.map(|bit| 1 << bit);
        let bad: Vec<u16> = bad.filter(|bit| self.ground.free & bit == 0).collect();
        let bad = (!bad.is_empty()).then(|| random.pick(&bad))?;
        Some(individual(bad | self.bits(random)).into())
    }

    /// The front of a record, which may have another fault.
    fn cut(kind: u8, length: usize, random: &mut Random) -> Vec<u8> {
        let mut record = match random.below(2) {
            0 => vec![0; 6],
            _ => random.bytes(6),
        };
        record[0] = kind;
        record.truncate(length);
        record
    }
}

/// A record of a kind that is not known, with a body of some length.
fn unknown(random: &mut Random) -> Vec<u8> {
    let near = [0x3F, 0x42, 0x00, 0x30, 0x31, 0xC0, 0xC1, 0x04, 0x14];
    let kind = match random.below(2) {
        0 => random.pick(&near),
        _ => random.byte(),
    };
    if kind == INDIVIDUAL || kind == CONNECTION {
        return unknown(random);
    }
    let length = random.below(6);
    [vec![kind], random.bytes(length)].concat()
}
