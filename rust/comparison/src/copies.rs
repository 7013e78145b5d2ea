//! Copies of restrictions in records of their own, mostly written alike and
//! otherwise nearly so.

use crate::made_up::Sheet;
use crate::random::Random;

/// The most records that a copy takes beyond the restriction's own tree.
const MORE: usize = 4;

/// Adds a copy of a restriction, if the sheet then has at most so many records;
/// answers its record.
pub fn copy(sheet: &mut Sheet, restriction: u8, records: usize, random: &mut Random) -> Option<u8> {
    let before = sheet.starts.len() + MORE;
    if before > records || before + size(sheet, restriction) > records {
        return None;
    }
    let [kind, role, filler] = *sheet.record(restriction) else {
        unreachable!("a restriction is copied");
    };
    let style = random.below(12);
    let role = match style {
        0 => other_role(sheet, role, random),
        _ => tree(sheet, role, random),
    };
    let filler = tree(sheet, filler, random);
    Some(match style {
        1 => with_filler(sheet, [dual(kind), role], filler, 0),
        2 => with_filler(sheet, [kind, role], filler, 1),
        3 => with_filler(sheet, [kind, role], filler, 3),
        4 | 5 => with_filler(sheet, [kind, role], filler, 2),
        6 | 7 => {
            let negated = with_filler(sheet, [dual(kind), role], filler, 1);
            sheet.push(&[0x04, negated])
        }
        _ => with_filler(sheet, [kind, role], filler, 0),
    })
}

/// Whether a restriction's filler is a leaf, under nots or not.
pub fn has_plain_filler(sheet: &Sheet, restriction: u8) -> bool {
    let mut filler = sheet.record(restriction)[2];
    while let [0x04, inner] = *sheet.record(filler) {
        filler = inner;
    }
    is_leaf(sheet.record(filler))
}

/// Some for only, and only for some.
fn dual(kind: u8) -> u8 {
    0x07 + 0x08 - kind
}

/// A restriction whose filler stands under so many nots.
fn with_filler(sheet: &mut Sheet, [kind, role]: [u8; 2], mut filler: u8, nots: usize) -> u8 {
    for _ in 0..nots {
        filler = sheet.push(&[0x04, filler]);
    }
    sheet.push(&[kind, role, filler])
}

fn is_leaf(record: &[u8]) -> bool {
    matches!(record[0], 0x01..=0x03 | 0x10 | 0x11)
}

/// The records of a tree, a leaf counted as often as it is named.
fn size(sheet: &Sheet, number: u8) -> usize {
    match sheet.record(number) {
        leaf if is_leaf(leaf) => 1,
        [_, operands @ ..] => 1 + operands.iter().map(|&c| size(sheet, c)).sum::<usize>(),
        [] => unreachable!("a record has a kind"),
    }
}

/// The same tree; a leaf may be the same record.
fn tree(sheet: &mut Sheet, number: u8, random: &mut Random) -> u8 {
    let mut record = sheet.record(number).to_vec();
    if !is_leaf(&record) {
        for operand in &mut record[1..] {
            *operand = tree(sheet, *operand, random);
        }
    } else if random.one_in(2) {
        return number;
    }
    sheet.push(&record)
}

/// A role with the same meaning that is written otherwise: its operands
/// exchanged, or two nots before it.
fn other_role(sheet: &mut Sheet, role: u8, random: &mut Random) -> u8 {
    if let [kind @ (0x13 | 0x14), u, v] = *sheet.record(role) {
        let (u, v) = (tree(sheet, u, random), tree(sheet, v, random));
        return sheet.push(&[kind, v, u]);
    }
    let role = tree(sheet, role, random);
    let not = sheet.push(&[0x12, role]);
    sheet.push(&[0x12, not])
}
