//! Made-up sheets with one faulty reference.

use super::{Case, Fault};
use crate::made_up::{self, Sheet, MAX_RECORDS};
use crate::random::Random;
use crate::records::{is_leaf, sort, wants, Sort};

/// The most records that [`add`] adds.
const MOST: usize = 9;

/// A made-up sheet whose first fault is that of the case; answers also where it
/// stands.
pub fn sheet(case: Case, random: &mut Random) -> (Vec<u8>, usize) {
    loop {
        let mut sheet = made_up::sheet(random);
        if let Some(place) = add(&mut sheet, case, random) {
            let more = random.below(4);
            sheet.bytes.extend(random.bytes(more));
            return (sheet.bytes, place);
        }
    }
}

/// Adds a record with a faulty reference to a sheet without faults, and before
/// it what it needs; answers where the reference stands. Adds nothing if there
/// is no room.
pub fn add(sheet: &mut Sheet, case: Case, random: &mut Random) -> Option<usize> {
    if sheet.starts.len() + MOST > MAX_RECORDS {
        return None;
    }
    let body = body(sheet, case, random).or_else(|| {
        add_some_of_each(sheet);
        body(sheet, case, random)
    });
    let body = body.expect("records of each sort to name");
    let start = sheet.bytes.len();
    let references = wants(case.kind).len();
    sheet.push(&[&[case.kind], &body[..references]].concat());
    Some(start + 1 + case.which)
}

/// The references of a record with that fault, if the sheet has what they name.
/// What follows the faulty one may be anything.
fn body(sheet: &Sheet, case: Case, random: &mut Random) -> Option<[u8; 2]> {
    let records = records(sheet);
    let wants = wants(case.kind);
    let faulty = pick(&records, case.wanted(), Some(case.fault), random);
    if case.which == 0 {
        return Some([faulty?, random.byte()]);
    }
    let first = pick(&records, wants[0], None, random)?;
    let again = case.fault == Fault::NamedTwice
        && wants[0] == wants[1]
        && !records[usize::from(first)].is_leaf;
    if again && random.one_in(2) {
        return Some([first, first]);
    }
    Some([first, faulty?])
}

/// A record as a reference finds it.
struct Record {
    /// None for an axiom or a role inclusion.
    sort: Option<Sort>,
    is_leaf: bool,
    named: bool,
}

/// The records of a sheet without faults.
fn records(sheet: &Sheet) -> Vec<Record> {
    let mut records: Vec<Record> = Vec::new();
    for number in 0..sheet.starts.len() {
        let record = sheet.record(number as u8);
        let kind = record[0];
        for &target in &record[1..=wants(kind).len()] {
            records[usize::from(target)].named = true;
        }
        records.push(Record {
            sort: sort(kind),
            is_leaf: is_leaf(kind),
            named: false,
        });
    }
    records
}

/// Any number that a reference can name with that fault, or without one.
fn pick(records: &[Record], wanted: Sort, fault: Option<Fault>, random: &mut Random) -> Option<u8> {
    let fits = |&target: &u8| fault_of(records.get(usize::from(target)), wanted) == fault;
    let targets: Vec<u8> = (0..=u8::MAX).filter(fits).collect();
    (!targets.is_empty()).then(|| random.pick(&targets))
}

/// The fault of a reference to that record, if one comes before.
fn fault_of(record: Option<&Record>, wanted: Sort) -> Option<Fault> {
    let Some(record) = record else {
        return Some(Fault::NotEarlier);
    };
    match record.sort {
        None => Some(Fault::AxiomNamed),
        Some(sort) if sort != wanted => Some(Fault::WrongSort),
        Some(_) if record.named && !record.is_leaf => Some(Fault::NamedTwice),
        Some(_) => None,
    }
}

/// Adds a leaf of each sort, a record of each sort that is named, an axiom and a
/// role inclusion.
fn add_some_of_each(sheet: &mut Sheet) {
    let leaf = sheet.push(&[0x01]);
    let named = sheet.push(&[0x04, leaf]);
    sheet.push(&[0x04, named]);
    sheet.push(&[0x20, leaf, leaf]);
    let leaf = sheet.push(&[0x10, 0]);
    let named = sheet.push(&[0x12, leaf]);
    sheet.push(&[0x12, named]);
    sheet.push(&[0x21, leaf, leaf]);
}
