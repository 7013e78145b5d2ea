//! A refusal for people.

#[cfg(test)]
mod tests;

use crate::names::Names;
use crate::owl;
use crate::tree::{trees, Tree};
use lodhrussi::records::{records, Field, Record, Reference, Sort, KIND_BYTES};
use lodhrussi::{Call, Refusal};
use std::iter::repeat;
use std::ops::Range;

/// The refusal of a sheet: its place, its sentence and the record's bytes with
/// the fault underlined; or of an OWL text, with the line of the fault. Ends with
/// a line feed.
#[must_use]
pub fn picture(file: &str, sheet: &[u8], refusal: &Refusal, names: &Names) -> String {
    let mut picture = format!("{file}: {}\n{}\n", told(refusal), refusal.explain(sheet));
    if refusal.call == Call::Import {
        picture.push_str(&of_text(sheet, refusal).unwrap_or_default());
        return picture;
    }
    for drawing in drawings(sheet, refusal, names).unwrap_or_default() {
        picture.push_str(&drawing.lines());
    }
    picture
}

/// Number and place of a refusal; the number alone if no byte is at fault.
#[must_use]
pub fn told(refusal: &Refusal) -> String {
    let Refusal {
        call,
        number,
        place,
    } = refusal;
    match (call, number) {
        (Call::Import, 3) => format!("refused {number}"),
        (_, 1..=8 | 16..=20) => format!("refused {number} at byte {place}"),
        _ => format!("refused {number}"),
    }
}

/// The line of a text at which it is refused.
fn of_text(text: &[u8], refusal: &Refusal) -> Option<String> {
    let at_a_byte = matches!(refusal.number, 18 | 19);
    let place = usize::try_from(refusal.place).ok()?;
    at_a_byte.then(|| owl::drawing(text, place))?
}

/// The record at fault; none if the fault is of the whole sheet, or another
/// sheet was refused.
#[must_use]
pub fn faulty_record<'a>(sheet: &'a [u8], refusal: &Refusal) -> Option<Record<'a>> {
    let first = lodhrussi::read(sheet).err()?;
    if (first.number, first.place) != (refusal.number, refusal.place) || first.number == 9 {
        return None;
    }
    let place = usize::try_from(first.place).ok()?;
    records(sheet).find(|record| place <= record.start + record.body.len())
}

/// A record with some of its bytes underlined.
struct Drawing<'a> {
    record: Record<'a>,
    /// Counted from the record's start; they may be missing from the sheet.
    bytes: Range<usize>,
    caption: String,
}

impl Drawing<'_> {
    fn lines(&self) -> String {
        let record = &self.record;
        let drawn = Drawn {
            number: record.number,
            start: record.start,
            bytes: &record.bytes().collect::<Vec<_>>(),
            length: 1 + record.fields().len(),
            words: record.words(),
        };
        drawn.lines(&self.bytes, &self.caption)
    }
}

/// A record as it is drawn.
pub struct Drawn<'a> {
    pub number: usize,
    pub start: usize,
    /// As far as they are there.
    pub bytes: &'a [u8],
    /// How many they should be.
    pub length: usize,
    pub words: &'a str,
}

impl Drawn<'_> {
    /// The record, and under it the caption and the underline of some of its
    /// bytes, which may be missing.
    #[must_use]
    pub fn lines(&self, bytes: &Range<usize>, caption: &str) -> String {
        let place = format!("  record {} at byte {}:  ", self.number, self.start);
        format!(
            "{place}{}  {}\n{:indent$}{:rest$}  {caption}\n",
            self.hex(),
            self.words,
            "",
            "^".repeat(3 * bytes.len() - 1),
            indent = place.len() + 3 * bytes.start,
            rest = 3 * (self.length - bytes.start) - 1,
        )
    }

    /// The bytes in hex, dots for those that are missing.
    fn hex(&self) -> String {
        let shown = self.bytes.iter().map(|byte| format!("{byte:02X}"));
        let shown = shown.chain(repeat("..".into())).take(self.length);
        shown.collect::<Vec<_>>().join(" ")
    }
}

/// What is drawn of a refusal; nothing if another sheet was refused.
fn drawings<'a>(sheet: &'a [u8], refusal: &Refusal, names: &Names) -> Option<Vec<Drawing<'a>>> {
    if refusal.number == 20 {
        return Some(vec![without_text(sheet, refusal, names)?]);
    }
    let record = faulty_record(sheet, refusal)?;
    let draw = |bytes, caption| {
        Some(vec![Drawing {
            record,
            bytes,
            caption,
        }])
    };
    let length = 1 + record.fields().len();
    match refusal.number {
        1 => {
            let caption = format!("kind: found {:02X}; wanted {KIND_BYTES}", record.byte);
            draw(0..1, caption)
        }
        2 => draw(1 + record.body.len()..length, cut_off(&record)),
        3 => draw(
            0..1,
            "found a 256th record; wanted the end of the sheet".into(),
        ),
        4 => draw(1..2, number_too_large(&record)?),
        8 => draw(0..length, on_empty_set(sheet, &record, names)?),
        _ => of_reference(sheet, refusal, record),
    }
}

/// An axiom or a role inclusion that has no text.
fn without_text<'a>(sheet: &'a [u8], refusal: &Refusal, names: &Names) -> Option<Drawing<'a>> {
    let mut records = records(sheet);
    let record = records.find(|record| record.start as u64 == refusal.place)?;
    let tree = trees(sheet).into_iter().nth(record.number)?;
    let caption = match &*tree {
        Tree::Inclusion(..) => "found a link rule; wanted a rule about classes".into(),
        axiom => {
            let role = boolean_role(axiom)?.text(names);
            format!("found the link {role}; wanted a link as named or reversed")
        }
    };
    Some(Drawing {
        record,
        bytes: 0..1 + record.fields().len(),
        caption,
    })
}

/// The first role with not, and, or in a concept or an axiom.
fn boolean_role(tree: &Tree) -> Option<&Tree> {
    match tree {
        Tree::Exists(u, _) | Tree::Forall(u, _) if is_boolean(u) => Some(u),
        Tree::Not(c) | Tree::Exists(_, c) | Tree::Forall(_, c) => boolean_role(c),
        Tree::And(c, d) | Tree::Or(c, d) | Tree::Axiom(c, d) => {
            boolean_role(c).or_else(|| boolean_role(d))
        }
        _ => None,
    }
}

fn is_boolean(role: &Tree) -> bool {
    !matches!(role, Tree::Role(_) | Tree::Inverse(_))
}

fn cut_off(record: &Record<'_>) -> String {
    use Field::{Name, Reference};
    use Sort::{Concept, Role};
    let wanted = match &record.fields()[record.body.len()..] {
        [Name] => "the number of a trait",
        [Field::Role] => "the number of a link",
        [Reference(Concept)] => "a class",
        [Reference(Role)] => "a link",
        [Reference(Concept), Reference(Concept)] => "two classes",
        [Reference(Role), Reference(Role)] => "two links",
        _ => "a link and a class",
    };
    format!("found the end of the sheet; wanted {wanted}")
}

fn number_too_large(record: &Record<'_>) -> Option<String> {
    let last = match record.fields() {
        [Field::Name] => 11,
        _ => 3,
    };
    let number = record.body.first()?;
    Some(format!("number: found {number}; wanted 0 to {last}"))
}

/// The role of a restriction, or the first of an inclusion, which holds on the
/// empty role set.
fn on_empty_set(sheet: &[u8], record: &Record<'_>, names: &Names) -> Option<String> {
    let role = usize::from(*record.body.first()?);
    let role = trees(&sheet[..record.start]).get(role)?.text(names);
    let link = match record.sort()? {
        Sort::Axiom => "first link",
        _ => "link",
    };
    Some(format!(
        "found the {link} {role}, which holds on the empty set of links; \
         wanted a link that fails there"
    ))
}

/// A fault of one reference; where the record it names was named before, that
/// is drawn as well.
fn of_reference<'a>(
    sheet: &'a [u8],
    refusal: &Refusal,
    record: Record<'a>,
) -> Option<Vec<Drawing<'a>>> {
    let place = usize::try_from(refusal.place).ok()?;
    let reference = record.references().find(|r| r.place == place)?;
    let (number, wants) = (reference.names, reference.wants);
    let named = records(sheet).nth(usize::from(number));
    let (found, wanted) = match refusal.number {
        5 => (String::new(), format!("an earlier {wants}")),
        7 => (
            ", named before".into(),
            format!("a {wants} not named before"),
        ),
        _ => (format!(", a {}", named?.sort()?), format!("a {wants}")),
    };
    let caption = format!("found record {number}{found}; wanted {wanted}");
    let mut drawings = vec![underlined(record, reference, &caption)];
    if refusal.number == 7 {
        drawings.push(first_naming(sheet, number)?);
    }
    Some(drawings)
}

/// Where a record is named first.
fn first_naming(sheet: &[u8], number: u8) -> Option<Drawing<'_>> {
    records(sheet).find_map(|record| {
        let reference = record.references().find(|r| r.names == number)?;
        let caption = format!("names record {number} before");
        Some(underlined(record, reference, &caption))
    })
}

/// A record with a reference of it underlined.
fn underlined<'a>(record: Record<'a>, reference: Reference, caption: &str) -> Drawing<'a> {
    let at = reference.place - record.start;
    let which = match (record.fields().len(), at) {
        (1, _) => "only",
        (_, 1) => "first",
        _ => "second",
    };
    Drawing {
        record,
        bytes: at..at + 1,
        caption: format!("{which} reference: {caption}"),
    }
}
