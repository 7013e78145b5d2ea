//! The bytes of a sheet as records, without a check of what they name.
//!
//! ```
//! use lodhrussi::records::records;
//!
//! let shown: Vec<String> = records(&[1, 0x10, 0, 7, 1, 0]).map(|r| r.to_string()).collect();
//! assert_eq!(shown[0], "record 0 (01, everything, at byte 0)");
//! assert_eq!(shown[1], "record 1 (10, link as named, at byte 1)");
//! assert_eq!(shown[2], "record 2 (07, some, at byte 3)");
//! ```

use std::fmt;
use std::iter::once;

/// What a record is, and what a reference wants. Displayed in document 01's
/// words.
#[derive(Clone, Copy, Debug, PartialEq, Eq, Hash)]
#[non_exhaustive]
pub enum Sort {
    /// Displayed as class.
    Concept,
    /// Displayed as link.
    Role,
    /// An axiom or a role inclusion. Displayed as rule.
    Axiom,
}

impl fmt::Display for Sort {
    fn fmt(&self, f: &mut fmt::Formatter<'_>) -> fmt::Result {
        f.write_str(match self {
            Sort::Concept => "class",
            Sort::Role => "link",
            Sort::Axiom => "rule",
        })
    }
}

/// What a byte of a record's body is.
#[derive(Clone, Copy, Debug, PartialEq, Eq, Hash)]
#[non_exhaustive]
pub enum Field {
    /// The number of a concept name (document 01: trait).
    Name,
    /// The number of a role (document 01: link).
    Role,
    /// The number of an earlier record, which must be of that sort.
    Reference(Sort),
}

/// A kind of record.
#[derive(Debug, PartialEq, Eq)]
pub struct Kind {
    /// The byte that a record of this kind starts with.
    pub byte: u8,
    pub sort: Sort,
    /// In the words of documents 01 and 02.
    pub words: &'static str,
    pub body: &'static [Field],
}

const NAME: &[Field] = &[Field::Name];
const ROLE: &[Field] = &[Field::Role];
const OF_CONCEPT: &[Field] = &[Field::Reference(Sort::Concept)];
const OF_CONCEPTS: &[Field] = &[Field::Reference(Sort::Concept); 2];
const OF_ROLE: &[Field] = &[Field::Reference(Sort::Role)];
const OF_ROLES: &[Field] = &[Field::Reference(Sort::Role); 2];
const OF_BOTH: &[Field] = &[
    Field::Reference(Sort::Role),
    Field::Reference(Sort::Concept),
];

/// Every kind.
pub static KINDS: [Kind; 15] = [
    kind(0x01, Sort::Concept, "everything", &[]),
    kind(0x02, Sort::Concept, "nothing", &[]),
    kind(0x03, Sort::Concept, "trait", NAME),
    kind(0x04, Sort::Concept, "not of a class", OF_CONCEPT),
    kind(0x05, Sort::Concept, "and of classes", OF_CONCEPTS),
    kind(0x06, Sort::Concept, "or of classes", OF_CONCEPTS),
    kind(0x07, Sort::Concept, "some", OF_BOTH),
    kind(0x08, Sort::Concept, "only", OF_BOTH),
    kind(0x10, Sort::Role, "link as named", ROLE),
    kind(0x11, Sort::Role, "link reversed", ROLE),
    kind(0x12, Sort::Role, "not of a link", OF_ROLE),
    kind(0x13, Sort::Role, "and of links", OF_ROLES),
    kind(0x14, Sort::Role, "or of links", OF_ROLES),
    kind(0x20, Sort::Axiom, "rule", OF_CONCEPTS),
    kind(0x21, Sort::Axiom, "link rule", OF_ROLES),
];

/// The bytes of [`KINDS`].
pub const KIND_BYTES: &str = "01 to 08, 10 to 14, 20 and 21";

const fn kind(byte: u8, sort: Sort, words: &'static str, body: &'static [Field]) -> Kind {
    Kind {
        byte,
        sort,
        words,
        body,
    }
}

impl Kind {
    /// The kind of records that start with that byte.
    #[must_use]
    pub fn of(byte: u8) -> Option<&'static Self> {
        KINDS.iter().find(|kind| kind.byte == byte)
    }
}

/// A record of a sheet. The last one may be of no known kind, and then has no
/// body, or be cut off by the end of the sheet.
///
/// Displayed with its number, kind and place.
#[derive(Clone, Copy, Debug, PartialEq, Eq)]
pub struct Record<'a> {
    /// Counted from 0.
    pub number: usize,
    /// The byte where it starts.
    pub start: usize,
    /// What stands there.
    pub byte: u8,
    pub kind: Option<&'static Kind>,
    /// As far as it is there.
    pub body: &'a [u8],
}

/// A reference of a record to another.
#[derive(Clone, Copy, Debug, PartialEq, Eq)]
pub struct Reference {
    /// The byte where it stands.
    pub place: usize,
    /// The number of the record that it names.
    pub names: u8,
    pub wants: Sort,
}

impl<'a> Record<'a> {
    /// Its kind in document 01's words.
    #[must_use]
    pub fn words(&self) -> &'static str {
        self.kind.map_or("no known kind", |kind| kind.words)
    }

    /// What it is, if its kind is known.
    #[must_use]
    pub fn sort(&self) -> Option<Sort> {
        self.kind.map(|kind| kind.sort)
    }

    /// Its bytes, as far as they are there.
    pub fn bytes(&self) -> impl Iterator<Item = u8> + 'a {
        once(self.byte).chain(self.body.iter().copied())
    }

    /// What the kind says of the body; nothing if the kind is not known.
    #[must_use]
    pub fn fields(&self) -> &'static [Field] {
        self.kind.map_or(&[], |kind| kind.body)
    }

    /// The references in its body, first to last.
    pub fn references(&self) -> impl Iterator<Item = Reference> + 'a {
        let bytes = (self.start + 1..).zip(self.body);
        let fields = self.fields().iter().zip(bytes);
        fields.filter_map(|(&field, (place, &names))| match field {
            Field::Reference(wants) => Some(Reference {
                place,
                names,
                wants,
            }),
            Field::Name | Field::Role => None,
        })
    }
}

impl fmt::Display for Record<'_> {
    fn fmt(&self, f: &mut fmt::Formatter<'_>) -> fmt::Result {
        let Record {
            number,
            start,
            byte,
            ..
        } = self;
        let words = self.words();
        write!(f, "record {number} ({byte:02X}, {words}, at byte {start})")
    }
}

/// The records of a sheet, up to its end or to one of no known kind.
#[must_use]
pub fn records(sheet: &[u8]) -> Records<'_> {
    Records {
        number: 0,
        start: 0,
        rest: sheet,
    }
}

/// An iterator over [`records`].
#[derive(Clone, Debug)]
pub struct Records<'a> {
    number: usize,
    start: usize,
    rest: &'a [u8],
}

impl<'a> Iterator for Records<'a> {
    type Item = Record<'a>;

    fn next(&mut self) -> Option<Record<'a>> {
        let (&byte, rest) = self.rest.split_first()?;
        let kind = Kind::of(byte);
        let length = kind.map_or(0, |kind| kind.body.len());
        let (body, rest) = rest.split_at(length.min(rest.len()));
        let record = Record {
            number: self.number,
            start: self.start,
            byte,
            kind,
            body,
        };
        self.number += 1;
        self.start += 1 + body.len();
        self.rest = if kind.is_some() { rest } else { &[] };
        Some(record)
    }
}

#[cfg(test)]
mod tests {
    use super::*;
    use std::collections::HashSet;

    /// Number, start, byte and body of each record.
    fn walked(sheet: &[u8]) -> Vec<(usize, usize, u8, &[u8])> {
        let walked = records(sheet);
        walked
            .map(|r| (r.number, r.start, r.byte, r.body))
            .collect()
    }

    #[test]
    fn a_sheet_is_walked() {
        let sheet = [0x01, 0x10, 0, 0x03, 5, 0x07, 1, 2, 0x20, 0, 3];
        let expected: [(usize, usize, u8, &[u8]); 5] = [
            (0, 0, 0x01, &[]),
            (1, 1, 0x10, &[0]),
            (2, 3, 0x03, &[5]),
            (3, 5, 0x07, &[1, 2]),
            (4, 8, 0x20, &[0, 3]),
        ];
        assert_eq!(walked(&sheet), expected);
        assert_eq!(walked(&[]), []);
    }

    #[test]
    fn the_last_record_may_be_cut_off_or_of_no_known_kind() {
        assert_eq!(
            walked(&[0x01, 0x07, 9]),
            [(0, 0, 1, &[][..]), (1, 1, 7, &[9])]
        );
        let unknown = [0x02, 0x09, 0x01, 0x01];
        assert_eq!(walked(&unknown), [(0, 0, 2, &[][..]), (1, 1, 9, &[])]);
        let last = records(&unknown).last().expect("two records");
        assert_eq!(last.to_string(), "record 1 (09, no known kind, at byte 1)");
    }

    #[test]
    fn what_a_record_tells_of_itself() {
        let sheet = [0x10, 0, 0x20, 1, 0x02];
        let told = |record: Record<'_>| {
            let bytes: Vec<_> = record.bytes().collect();
            (record.words(), record.sort(), bytes)
        };
        let expected = [
            ("link as named", Some(Sort::Role), vec![0x10, 0]),
            ("rule", Some(Sort::Axiom), vec![0x20, 1]),
        ];
        assert!(records(&sheet[..4]).map(told).eq(expected));
        let inclusion = records(&[0x21, 0, 1]).map(told).next();
        let expected = ("link rule", Some(Sort::Axiom), vec![0x21, 0, 1]);
        assert_eq!(inclusion, Some(expected));
        let unknown = records(&[0x09, 1]).map(told).next();
        assert_eq!(unknown, Some(("no known kind", None, vec![0x09])));
    }

    #[test]
    fn references_stand_at_their_bytes() {
        let some = records(&[0x01, 0x07, 3, 4]).last().expect("two records");
        let reference = |place, names, wants| Reference {
            place,
            names,
            wants,
        };
        let expected = [reference(2, 3, Sort::Role), reference(3, 4, Sort::Concept)];
        assert!(some.references().eq(expected));
        let inclusion = records(&[0x21, 1, 0]).last().expect("a record");
        let expected = [reference(1, 1, Sort::Role), reference(2, 0, Sort::Role)];
        assert!(inclusion.references().eq(expected));
        let name = records(&[0x03, 0]).last().expect("a record");
        assert_eq!(name.references().count(), 0);
    }

    #[test]
    fn kinds_have_their_own_bytes_and_words() {
        let bytes: Vec<u8> = KINDS.iter().map(|kind| kind.byte).collect();
        let known: Vec<u8> = (0x01..=0x08)
            .chain(0x10..=0x14)
            .chain([0x20, 0x21])
            .collect();
        assert_eq!(bytes, known);
        assert_eq!(KIND_BYTES, "01 to 08, 10 to 14, 20 and 21");
        let words: HashSet<&str> = KINDS.iter().map(|kind| kind.words).collect();
        assert_eq!(words.len(), KINDS.len());
    }
}
