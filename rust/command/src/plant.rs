//! A drawn plant: its bytes as records, its items and the connections between
//! them.

pub mod fault;

#[cfg(test)]
mod tests;

use std::ops::Range;

/// The byte that an item begins with.
pub const ITEM: u8 = 0x40;

/// The byte that a connection begins with.
const CONNECTION: u8 = 0x41;

/// What a record of a plant is.
#[derive(Clone, Copy, Debug, PartialEq, Eq)]
pub enum Kind {
    /// With the name and fresh bits that it has.
    Item,
    /// From an item to an item, of a role (document 01: link).
    Connection,
}

impl Kind {
    fn of(byte: u8) -> Option<Self> {
        match byte {
            ITEM => Some(Kind::Item),
            CONNECTION => Some(Kind::Connection),
            _ => None,
        }
    }

    /// The bytes of a whole record.
    fn length(self) -> usize {
        match self {
            Kind::Item => 3,
            Kind::Connection => 6,
        }
    }
}

/// A record of a plant. The last one may be of no known kind, and then has one
/// byte, or be cut off by the end of the plant.
#[derive(Clone, Copy, Debug, PartialEq, Eq)]
pub struct Record<'a> {
    /// Counted from 0.
    pub number: usize,
    /// The byte where it starts.
    pub start: usize,
    pub kind: Option<Kind>,
    /// As far as they are there.
    pub bytes: &'a [u8],
}

impl Record<'_> {
    /// The bytes that a whole one of its kind has.
    fn length(&self) -> usize {
        self.kind.map_or(1, Kind::length)
    }

    fn words(&self) -> &'static str {
        match self.kind {
            Some(Kind::Item) => "item",
            Some(Kind::Connection) => "connection",
            None => "no known kind",
        }
    }

    /// The number in two of its bytes, low first; missing ones are zeros.
    fn pair(&self, bytes: Range<usize>) -> u16 {
        let byte = |at: usize| self.bytes.get(at).copied().unwrap_or_default();
        u16::from_le_bytes([byte(bytes.start), byte(bytes.start + 1)])
    }

    /// The bits of an item.
    fn bits(&self) -> u16 {
        self.pair(BITS)
    }

    /// The items of a connection.
    pub fn ends(&self) -> [usize; 2] {
        [FROM, TO].map(|bytes| usize::from(self.pair(bytes)))
    }

    /// The role of a connection.
    pub fn role(&self) -> u8 {
        self.bytes.get(ROLE).copied().unwrap_or_default()
    }
}

/// Where an item's bits stand in its record.
const BITS: Range<usize> = 1..3;

/// Where the items and the role of a connection stand in its record.
const FROM: Range<usize> = 1..3;
const TO: Range<usize> = 3..5;
const ROLE: usize = 5;

/// The records of a plant, up to its end or to one of no known kind.
pub fn records(plant: &[u8]) -> impl Iterator<Item = Record<'_>> {
    let (mut number, mut start, mut rest) = (0, 0, plant);
    std::iter::from_fn(move || {
        let kind = Kind::of(*rest.first()?);
        let length = kind.map_or(1, Kind::length).min(rest.len());
        let (bytes, after) = rest.split_at(length);
        let record = Record {
            number,
            start,
            kind,
            bytes,
        };
        rest = if kind.is_some() { after } else { &[] };
        number += 1;
        start += length;
        Some(record)
    })
}

/// The items of a plant and what joins them.
#[derive(Clone, Debug, PartialEq, Eq)]
pub struct Plant {
    /// The name and fresh bits of each, as drawn: bit n for part n.
    items: Vec<u16>,
    /// The role set from each item to each, from the first to all, then from the
    /// second.
    roles: Vec<u8>,
}

impl Plant {
    /// The plant of the bytes of one without a fault.
    #[must_use]
    pub fn of(bytes: &[u8]) -> Self {
        let of_kind = |kind| records(bytes).filter(move |record| record.kind == Some(kind));
        let items: Vec<_> = of_kind(Kind::Item).map(|record| record.bits()).collect();
        let roles = vec![0; items.len() * items.len()];
        let mut plant = Plant { items, roles };
        for connection in of_kind(Kind::Connection) {
            let ([from, to], role) = (connection.ends(), connection.role());
            plant.join(from, to, 1 << (2 * role));
            plant.join(to, from, 2 << (2 * role));
        }
        plant
    }

    /// Puts a member into the role set from one item to another.
    fn join(&mut self, from: usize, to: usize, member: u8) {
        let at = self.at(from, to);
        self.roles[at] |= member;
    }

    fn at(&self, from: usize, to: usize) -> usize {
        from * self.items.len() + to
    }

    /// How many items there are.
    #[must_use]
    pub fn len(&self) -> usize {
        self.items.len()
    }

    /// Whether an item is drawn with the bit of that part.
    #[must_use]
    pub fn has(&self, item: usize, part: usize) -> bool {
        self.items[item] >> part & 1 == 1
    }

    /// The bits of an item below a bound.
    #[must_use]
    pub fn bits_below(&self, bound: u64, item: usize) -> u64 {
        u64::from(self.items[item]) & ((1 << bound) - 1)
    }

    /// The role set from one item to another.
    #[must_use]
    pub fn roles(&self, from: usize, to: usize) -> u8 {
        self.roles[self.at(from, to)]
    }

    /// How many connections there are, one that is repeated counted once.
    #[must_use]
    pub fn connections(&self) -> u64 {
        const AS_NAMED: u8 = 0b0101_0101;
        let forward = self.roles.iter().map(|roles| roles & AS_NAMED);
        forward.map(|roles| u64::from(roles.count_ones())).sum()
    }
}
