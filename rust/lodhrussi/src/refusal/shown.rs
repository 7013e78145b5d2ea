//! What a sheet shows of its refusal.

use super::sentence::{said, Subject};
use super::Refusal;
use crate::records::{records, Field, Record, Reference, Sort, KIND_BYTES};
use crate::{words_needed, Call, Counts};
use std::collections::BTreeSet;

/// The most survivors of which a plant is drawn.
const MOST_SURVIVORS: u64 = 341;

/// A sentence with what the sheet shows; none if it is not the one refused.
pub(super) fn shown(refusal: &Refusal, sheet: &[u8]) -> Option<String> {
    let Refusal { number, place, .. } = *refusal;
    let (subject, _) = said(refusal.call, number)?;
    match (subject, crate::read(sheet)) {
        (Subject::Set, Ok(counts)) => {
            let words = count(words_needed(counts) as u64, "word");
            Some(needed(counts, &format!("a set takes {words}")))
        }
        (Subject::DominoNumber, Ok(counts)) => {
            let last = (1_u64 << (2 * (counts.marks() + counts.links))) - 1;
            let numbered = format!("the pairings are numbered 0 to {last}");
            Some(needed(counts, &numbered))
        }
        (Subject::List, Ok(counts)) => {
            let bytes = count(3 * counts.marks(), "byte");
            Some(needed(counts, &format!("the list takes {bytes}")))
        }
        (Subject::Plant, Ok(counts)) if number == 24 => of_plant(sheet, counts),
        (Subject::Output, Ok(counts)) => of_output(refusal.call, sheet, counts),
        (Subject::Sheet, Ok(counts)) if number == 27 => of_survivors(sheet, counts),
        (Subject::Axiom, Ok(_)) => of_axiom(sheet, place),
        (_, Err(fault)) if (fault.number, fault.place) == (number, place) => {
            let place = usize::try_from(place).ok()?;
            match subject {
                Subject::Record => of_record(number, sheet, place),
                Subject::Reference => of_reference(number, sheet, place),
                _ => Some(of_whole(sheet)),
            }
        }
        _ => None,
    }
}

/// So many things.
pub(super) fn count(number: u64, thing: &str) -> String {
    let plural = if number == 1 { "" } else { "s" };
    format!("{number} {thing}{plural}")
}

/// What a sheet without faults needs.
fn needed(counts: Counts, what: &str) -> String {
    let (marks, links) = (count(counts.marks(), "mark"), count(counts.links, "link"));
    format!("With {marks} and {links} {what}.")
}

/// What an item may have, and what a connection.
fn of_plant(sheet: &[u8], counts: Counts) -> Option<String> {
    let mut list = vec![0; 3 * counts.marks() as usize];
    crate::list_marks(sheet, &mut list).ok()?;
    let parts = (0..).zip(list.chunks_exact(3));
    let names = parts.filter(|(_, part)| matches!(part[0], 0 | 1));
    let bits = numbered("bit", &names.map(|(number, _)| number).collect::<Vec<_>>());
    let links = numbered("link", &(0..counts.links).collect::<Vec<_>>());
    let may_have = format!("an item may have {bits}, and a connection {links}");
    Some(needed(counts, &may_have))
}

/// What the output of a call takes.
fn of_output(call: Call, sheet: &[u8], counts: Counts) -> Option<String> {
    let (what, length) = match call {
        Call::DrawPlant => {
            let mut set = vec![0; words_needed(counts)];
            let plant = crate::drawn_plant(sheet, &mut set).ok()?;
            ("plant", plant.len())
        }
        _ => ("text", crate::exported(sheet).ok()?.len()),
    };
    let bytes = count(length as u64, "byte");
    Some(format!("The sheet's {what} takes {bytes}."))
}

/// How many survivors there are, if they are too many to draw.
fn of_survivors(sheet: &[u8], counts: Counts) -> Option<String> {
    let mut set = vec![0; words_needed(counts)];
    let survivors = crate::judge(sheet, &mut set).ok()?.survivors;
    let too_many = survivors > MOST_SURVIVORS;
    too_many.then(|| format!("It has {}.", count(survivors, "survivor")))
}

/// Things by their numbers.
fn numbered(thing: &str, numbers: &[u64]) -> String {
    match numbers {
        [] => format!("no {thing}"),
        [only] => format!("{thing} {only}"),
        [before @ .., last] => {
            let before: Vec<_> = before.iter().map(u64::to_string).collect();
            format!("{thing}s {} and {last}", before.join(", "))
        }
    }
}

/// Too many parts and roles.
fn of_whole(sheet: &[u8]) -> String {
    let traits = count(one_more_than_largest(Field::Name, sheet), "trait");
    let links = count(one_more_than_largest(Field::Role, sheet), "link");
    format!(
        "It has {traits} and {links}, counted by their largest numbers; \
         the other marks come from the some and only claims of its rules."
    )
}

/// One more than the largest number of that sort, or 0.
fn one_more_than_largest(field: Field, sheet: &[u8]) -> u64 {
    let with_number = records(sheet).filter(|record| record.fields() == [field]);
    let numbers = with_number.filter_map(|record| record.body.first());
    numbers.max().map_or(0, |&largest| u64::from(largest) + 1)
}

/// A fault of the record that starts at the place.
fn of_record(number: u64, sheet: &[u8], place: usize) -> Option<String> {
    let record = records(sheet).find(|record| record.start == place)?;
    let shown = match number {
        1 => format!("; the kinds are {KIND_BYTES}"),
        2 => cut_off(record),
        3 => ": records are numbered 0 to 254".into(),
        4 => number_too_large(record)?,
        8 => first_role(record, sheet)?,
        _ => return None,
    };
    let kind = record.kind.map(|kind| format!(" ({})", kind.words));
    Some(format!(
        "Byte {place} is {:02X}{} and begins record {}{shown}.",
        record.byte,
        kind.unwrap_or_default(),
        record.number
    ))
}

fn cut_off(record: Record<'_>) -> String {
    let (body, there) = (record.fields().len(), record.body.len());
    let missing = count(body.saturating_sub(there) as u64, "byte");
    let body = count(body as u64, "byte");
    format!(": its body takes {body}, and the sheet ends {missing} too soon")
}

fn number_too_large(record: Record<'_>) -> Option<String> {
    let limit = match record.fields() {
        [Field::Name] => "traits go up to 11",
        [Field::Role] => "links go up to 3",
        _ => return None,
    };
    let (number, place) = (record.body.first()?, record.start + 1);
    Some(format!(
        ": its number, at byte {place}, is {number} ({number:02X}), and {limit}"
    ))
}

/// The role of a restriction, or the first of an inclusion, which holds on the
/// empty role set.
fn first_role(record: Record<'_>, sheet: &[u8]) -> Option<String> {
    let role = record.references().next()?;
    let (place, named) = (role.place, named(sheet, role)?);
    let its = match record.sort()? {
        Sort::Axiom => "first link",
        _ => "link",
    };
    Some(format!(": its {its}, named at byte {place}, is {named}"))
}

/// The first axiom with a Boolean role, at the place, and where that is named; or
/// a role inclusion.
fn of_axiom(sheet: &[u8], place: u64) -> Option<String> {
    let refusal = crate::export(sheet, &mut []).err()?;
    if (refusal.number, refusal.place) != (20, place) {
        return None;
    }
    let all: Vec<_> = records(sheet).collect();
    let axiom = all.iter().find(|record| record.start as u64 == place)?;
    let (byte, words, number) = (axiom.byte, axiom.words(), axiom.number);
    let begins = format!("Byte {place} is {byte:02X} ({words}) and begins record {number}");
    if byte == 0x21 {
        return Some(format!("{begins}."));
    }
    let is_boolean = |record: &Record<'_>| matches!(record.byte, 0x12..=0x14);
    let naming = |record: &Record<'_>| {
        let role = record.references().next()?;
        let restricts = matches!(record.byte, 0x07 | 0x08);
        (restricts && is_boolean(&all[usize::from(role.names)])).then_some(role)
    };
    let mut reached = reached(&all[..=number]);
    let role = reached.find_map(naming)?;
    let (at, named) = (role.place, named(sheet, role)?);
    Some(format!(
        "{begins}: it reaches the link named at byte {at}, which is {named}."
    ))
}

/// The records that the last of some reaches, first to last.
fn reached<'a>(all: &'a [Record<'a>]) -> impl Iterator<Item = &'a Record<'a>> {
    let mut reached: BTreeSet<_> = all.last().map(|record| record.number).into_iter().collect();
    // a record names earlier ones
    for record in all.iter().rev() {
        if reached.contains(&record.number) {
            let references = record.references();
            reached.extend(references.map(|reference| usize::from(reference.names)));
        }
    }
    let is_reached = move |record: &&Record<'_>| reached.contains(&record.number);
    all.iter().filter(is_reached)
}

/// A fault of the reference at the place.
fn of_reference(number: u64, sheet: &[u8], place: usize) -> Option<String> {
    let is_there = |reference: &Reference| reference.place == place;
    let mut with = records(sheet).filter_map(|r| Some((r, r.references().find(is_there)?)));
    let (record, reference) = with.next()?;
    let shown = match number {
        5 => not_earlier(record, reference),
        7 => named_before(sheet, reference)?,
        _ => wrong_sort(sheet, reference)?,
    };
    let which = match (record.fields().len(), place - record.start) {
        (1, _) => "only",
        (_, 1) => "first",
        _ => "second",
    };
    let names = reference.names;
    Some(format!(
        "Byte {place} is {names:02X}, the {which} reference of {record}: it names {shown}."
    ))
}

/// The record that a reference names.
fn named(sheet: &[u8], reference: Reference) -> Option<Record<'_>> {
    records(sheet).nth(usize::from(reference.names))
}

fn not_earlier(record: Record<'_>, reference: Reference) -> String {
    let before = match record.number {
        0 => "no record comes before".into(),
        1 => "only record 0 comes before".into(),
        n => format!("only records 0 to {} come before", n - 1),
    };
    format!("record {}, and {before}", reference.names)
}

fn wrong_sort(sheet: &[u8], reference: Reference) -> Option<String> {
    let (named, wanted) = (named(sheet, reference)?, reference.wants);
    Some(format!("{named}, and a {wanted} is wanted"))
}

fn named_before(sheet: &[u8], reference: Reference) -> Option<String> {
    let named = named(sheet, reference)?;
    let mut references = records(sheet).flat_map(|record| record.references());
    let before = references.find(|before| before.names == reference.names)?;
    let before = before.place;
    Some(format!(
        "{named}, which the reference at byte {before} named before"
    ))
}
