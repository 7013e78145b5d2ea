//! Sheets with faults, and bytes that are hardly a sheet.

use crate::inclusions;
use crate::made_up::{self, Sheet, MAX_RECORDS};
use crate::misreference::{self, Case};
use crate::random::Random;
use crate::records::body_length;

const KINDS: [u8; 15] = [
    0x01, 0x02, 0x03, 0x04, 0x05, 0x06, 0x07, 0x08, 0x10, 0x11, 0x12, 0x13, 0x14, 0x20, 0x21,
];

/// A made-up sheet with some damage done to it.
pub fn damaged(random: &mut Random) -> Vec<u8> {
    let mut sheet = made_up::sheet(random);
    match random.below(12) {
        0 => overwrite_byte(&mut sheet.bytes, random),
        1 => insert_byte(&mut sheet.bytes, random),
        2 => remove_byte(&mut sheet.bytes, random),
        3 => cut(&mut sheet.bytes, random),
        4 => overwrite_kind(&mut sheet, random),
        5 => overwrite_body(&mut sheet, random),
        6 => add_loose_records(&mut sheet, random),
        7 => add_large_number(&mut sheet, random),
        8 => add_use_of_empty_role(&mut sheet, random),
        9 => overfill(&mut sheet, random),
        10 => add_restrictions(&mut sheet, random),
        _ => add_misreference(&mut sheet, random),
    }
    sheet.bytes
}

/// Random bytes: any, or mostly kinds and small numbers.
pub fn noise(random: &mut Random) -> Vec<u8> {
    let limit = if random.one_in(8) { 900 } else { 24 };
    let len = random.below(limit);
    match random.below(3) {
        0 => random.bytes(len),
        1 => (0..len).map(|_| likely_byte(random)).collect(),
        _ => loose_records(random),
    }
}

/// A byte that could stand in a sheet.
fn likely_byte(random: &mut Random) -> u8 {
    match random.below(8) {
        0 => random.byte(),
        1..=3 => random.byte_below(6),
        _ => random.pick(&KINDS),
    }
}

fn overwrite_byte(bytes: &mut [u8], random: &mut Random) {
    if !bytes.is_empty() {
        let at = random.below(bytes.len());
        bytes[at] = likely_byte(random);
    }
}

fn insert_byte(bytes: &mut Vec<u8>, random: &mut Random) {
    let at = random.below(bytes.len() + 1);
    bytes.insert(at, likely_byte(random));
}

fn remove_byte(bytes: &mut Vec<u8>, random: &mut Random) {
    if !bytes.is_empty() {
        let at = random.below(bytes.len());
        bytes.remove(at);
    }
}

fn cut(bytes: &mut Vec<u8>, random: &mut Random) {
    let len = random.below(bytes.len() + 1);
    bytes.truncate(len);
}

fn overwrite_kind(sheet: &mut Sheet, random: &mut Random) {
    if !sheet.starts.is_empty() {
        let start = random.pick(&sheet.starts);
        sheet.bytes[start] = random.byte();
    }
}

/// Overwrites a number or reference by one near the record's own.
fn overwrite_body(sheet: &mut Sheet, random: &mut Random) {
    if sheet.starts.is_empty() {
        return;
    }
    let number = random.below(sheet.starts.len());
    let start = sheet.starts[number];
    let end = sheet.starts.get(number + 1).copied();
    let end = end.unwrap_or(sheet.bytes.len());
    if end - start > 1 {
        let at = start + 1 + random.below(end - start - 1);
        sheet.bytes[at] = random.byte_below(number + 2);
    }
}

/// Records of known kinds whose references are drawn freely.
fn add_loose_records(sheet: &mut Sheet, random: &mut Random) {
    for _ in 0..1 + random.below(8) {
        let record = loose_record(sheet.starts.len(), random);
        sheet.push(&record);
    }
}

fn loose_records(random: &mut Random) -> Vec<u8> {
    let mut sheet = Sheet::default();
    for _ in 0..random.below(4) {
        let kind = random.pick(&[0x01, 0x03, 0x10]);
        sheet.push(&[kind, 0][..1 + usize::from(kind != 0x01)]);
    }
    add_loose_records(&mut sheet, random);
    sheet.bytes
}

fn loose_record(number: usize, random: &mut Random) -> Vec<u8> {
    let kind = random.pick(&KINDS);
    let body = body_length(kind).expect("a known kind");
    let limit = match random.below(8) {
        0 => number + 2,
        _ => number.max(1),
    };
    let mut record = vec![kind];
    record.extend((0..body).map(|_| random.byte_below(limit.min(256))));
    record
}

fn add_large_number(sheet: &mut Sheet, random: &mut Random) {
    let (kind, limit) = random.pick(&[(0x03, 12), (0x10, 4), (0x11, 4)]);
    let over = match random.below(3) {
        0 => 0,
        1 => random.byte_below(8),
        _ => random.byte_below(256 - usize::from(limit)),
    };
    sheet.push(&[kind, limit + over]);
}

/// A restriction by a role that holds on the empty role set, with any filler, or
/// an inclusion of such a role in any.
fn add_use_of_empty_role(sheet: &mut Sheet, random: &mut Random) {
    sheet.leaf_concept(&[0x01]);
    let role = match sheet.take_empty_role() {
        Some(role) => role,
        None => {
            let leaf = sheet.push(&[0x11, random.byte_below(4)]);
            sheet.push(&[0x12, leaf])
        }
    };
    if random.one_in(2) {
        return inclusions::add_on_empty(sheet, role, random);
    }
    let filler = match random.below(4) {
        0 => random.byte(),
        _ => sheet.take_concept(random),
    };
    sheet.push(&[random.pick(&[0x07, 0x08]), role, filler]);
}

/// A record with a faulty reference, if there is room.
fn add_misreference(sheet: &mut Sheet, random: &mut Random) {
    let case = random.pick(&Case::all());
    let _ = misreference::add(sheet, case, random);
}

/// Fills the sheet up, then begins a 256th record with any byte.
fn overfill(sheet: &mut Sheet, random: &mut Random) {
    while sheet.starts.len() < MAX_RECORDS {
        sheet.leaf_concept(&[0x02]);
    }
    if !random.one_in(4) {
        let more = 1 + random.below(4);
        sheet.bytes.extend(random.bytes(more));
    }
}

/// Axioms with one restriction each, around the most that fit or far more. Half
/// of their fillers get a fresh name; the others make few claims, often.
fn add_restrictions(sheet: &mut Sheet, random: &mut Random) {
    let axioms = match random.below(4) {
        0 => 80,
        _ => 4 + random.below(10),
    };
    let room = MAX_RECORDS.saturating_sub(sheet.starts.len() + 2) / 3;
    if room == 0 {
        return;
    }
    let role = sheet.push(&[0x10, random.byte_below(2)]);
    let leaf = sheet.push(&[random.pick(&[0x01, 0x02])]);
    for _ in 0..axioms.min(room) {
        let filler = if random.one_in(2) {
            sheet.push(&[0x05, leaf, leaf])
        } else {
            leaf
        };
        let restriction = sheet.push(&[random.pick(&[0x07, 0x08]), role, filler]);
        let sides = random.pick(&[[leaf, restriction], [restriction, leaf]]);
        sheet.push(&[0x20, sides[0], sides[1]]);
    }
}
