//! The kinds of records, by document 01's table and document 02's N8, and a walk
//! by them.

/// What a reference wants.
#[derive(Clone, Copy, Debug, PartialEq, Eq)]
pub enum Sort {
    Concept,
    Role,
}

use Sort::{Concept, Role};

/// The kinds with references, each with what these want, first to last.
pub const REFERRING: [(u8, &[Sort]); 10] = [
    (0x04, &[Concept]),
    (0x05, &[Concept, Concept]),
    (0x06, &[Concept, Concept]),
    (0x07, &[Role, Concept]),
    (0x08, &[Role, Concept]),
    (0x12, &[Role]),
    (0x13, &[Role, Role]),
    (0x14, &[Role, Role]),
    (0x20, &[Concept, Concept]),
    (0x21, &[Role, Role]),
];

/// What the references of a kind want.
#[must_use]
pub fn wants(kind: u8) -> &'static [Sort] {
    let found = REFERRING.iter().find(|(referring, _)| *referring == kind);
    found.map_or(&[], |(_, wants)| wants)
}

/// The sort of a kind that may be named.
#[must_use]
pub fn sort(kind: u8) -> Option<Sort> {
    match kind {
        0x01..=0x08 => Some(Concept),
        0x10..=0x14 => Some(Role),
        _ => None,
    }
}

/// Whether a record of that kind names none and may be named often.
#[must_use]
pub fn is_leaf(kind: u8) -> bool {
    matches!(kind, 0x01..=0x03 | 0x10 | 0x11)
}

/// The bytes after a known kind.
#[must_use]
pub fn body_length(kind: u8) -> Option<usize> {
    match kind {
        0x01 | 0x02 => Some(0),
        0x03 | 0x04 | 0x10..=0x12 => Some(1),
        0x05..=0x08 | 0x13 | 0x14 | 0x20 | 0x21 => Some(2),
        _ => None,
    }
}

/// The reference that the byte at `place` is: its record's kind, and 0 for the
/// first or 1 for the second.
#[must_use]
pub fn reference_at(sheet: &[u8], place: usize) -> Option<(u8, usize)> {
    let mut start = 0;
    loop {
        let kind = *sheet.get(start)?;
        let next = start + 1 + body_length(kind)?;
        if place < next {
            let which = place.checked_sub(start + 1)?;
            return (which < wants(kind).len()).then_some((kind, which));
        }
        start = next;
    }
}
