//! Which record of a plant is refused, and why, drawn.

use super::{records, Kind, Record, BITS, FROM, ROLE, TO};
use crate::names::Names;
use crate::parts::{Part, PartKind};
use crate::picture::Drawn;
use std::ops::Range;

/// The items that a plant has at most.
const MOST_ITEMS: usize = 1024;

/// What a plant is refused by, beside itself: what its sheet has.
#[derive(Clone, Copy)]
pub struct Of<'a> {
    pub parts: &'a [Part],
    /// How many roles.
    pub links: u64,
    pub names: &'a Names,
}

/// A fault of a record.
struct Fault {
    /// That of the refusal.
    number: u64,
    /// Counted from the record's start; they may be missing from the plant.
    bytes: Range<usize>,
    caption: String,
}

/// The first record at fault of a plant that was refused with that number, the
/// fault underlined; none where the plant as a whole is refused, or another was.
#[must_use]
pub fn drawing(plant: &[u8], number: u64, of: Of<'_>) -> Option<String> {
    let mut items = 0;
    for record in records(plant) {
        if let Some(fault) = fault(&record, items, of) {
            return (fault.number == number).then(|| lines(&record, &fault));
        }
        items += usize::from(record.kind == Some(Kind::Item));
    }
    None
}

fn lines(record: &Record<'_>, fault: &Fault) -> String {
    let drawn = Drawn {
        number: record.number,
        start: record.start,
        bytes: record.bytes,
        length: record.length(),
        words: record.words(),
    };
    drawn.lines(&fault.bytes, &fault.caption)
}

/// The fault of a record after so many items.
fn fault(record: &Record<'_>, items: usize, of: Of<'_>) -> Option<Fault> {
    let there = record.bytes.len();
    let (number, bytes, caption) = match record.kind {
        None => (22, 0..1, unknown(record)),
        Some(kind) if there < record.length() => (22, there..record.length(), cut_off(kind)),
        Some(Kind::Item) if items == MOST_ITEMS => (23, 0..1, one_too_many()),
        Some(Kind::Item) => {
            let bit = bit_at_fault(record.bits(), of)?;
            let byte = BITS.start + usize::from(bit) / 8;
            (24, byte..byte + 1, wrong_bit(bit, of))
        }
        Some(Kind::Connection) => {
            let (bytes, caption) = wrong_connection(record, items, of)?;
            (24, bytes, caption)
        }
    };
    Some(Fault {
        number,
        bytes,
        caption,
    })
}

fn unknown(record: &Record<'_>) -> String {
    let byte = record.bytes.first().copied().unwrap_or_default();
    format!("kind: found {byte:02X}; wanted 40 or 41")
}

fn cut_off(kind: Kind) -> String {
    let wanted = match kind {
        Kind::Item => "two bytes of traits and fresh marks",
        Kind::Connection => "two items, each in two bytes, and a link",
    };
    format!("found the end of the plant; wanted {wanted}")
}

fn one_too_many() -> String {
    "found a 1,025th item; wanted at most 1,024".into()
}

/// The first bit of an item that is no name and no fresh name.
fn bit_at_fault(bits: u16, of: Of<'_>) -> Option<u8> {
    let may_be_set = |bit: u8| {
        let part = of.parts.get(usize::from(bit));
        part.is_some_and(|part| matches!(part.kind, PartKind::Name | PartKind::Fresh))
    };
    (0..16).find(|&bit| bits >> bit & 1 == 1 && !may_be_set(bit))
}

fn wrong_bit(bit: u8, of: Of<'_>) -> String {
    let found = match of.parts.get(usize::from(bit)) {
        Some(part) => {
            let text = part.tree.text(of.names);
            format!("mark {bit}, {text}, which is worked out from the connections")
        }
        None => format!("bit {bit}, and there is no mark {bit}"),
    };
    format!("found {found}; wanted traits and fresh marks")
}

/// What is wrong with a connection, and its bytes.
fn wrong_connection(
    record: &Record<'_>,
    items: usize,
    of: Of<'_>,
) -> Option<(Range<usize>, String)> {
    let [from, to] = record.ends();
    let role = record.role();
    if from >= items {
        Some((FROM, wrong_item(from, items)))
    } else if to >= items {
        Some((TO, wrong_item(to, items)))
    } else if u64::from(role) >= of.links {
        let wanted = wanted(of.links, "the sheet has no link");
        Some((ROLE..ROLE + 1, format!("found link {role}; {wanted}")))
    } else {
        None
    }
}

fn wrong_item(item: usize, items: usize) -> String {
    let wanted = wanted(items as u64, "no item comes before");
    format!("found item {item}; {wanted}")
}

/// Which of so many things may be named; if there is none, that.
fn wanted(number: u64, none: &str) -> String {
    match number {
        0 => none.into(),
        1 => "wanted 0".into(),
        _ => format!("wanted 0 to {}", number - 1),
    }
}
