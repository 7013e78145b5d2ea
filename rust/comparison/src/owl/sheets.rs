//! Sheets to export: with a text; with Boolean roles that no axiom reaches; with
//! one that an axiom reaches, or a role inclusion, which have none.

use crate::few_axioms;
use crate::made_up::{self, MAX_RECORDS};
use crate::random::Random;
use crate::records::body_length;
use reference::owl;

/// The longest text.
pub(super) const LONGEST: usize = 1 << 14;

fn has_text(sheet: &[u8]) -> bool {
    owl::export(sheet, &mut [0; LONGEST]).is_ok()
}

/// A made-up sheet without role inclusions whose axioms reach no Boolean role;
/// others may be in it.
#[must_use]
pub fn with_text(random: &mut Random) -> Vec<u8> {
    loop {
        let sheet = match random.below(4) {
            0 => made_up::sheet(random).bytes,
            1 => made_up::repeating_sheet(random).bytes,
            2 => made_up::small_sheet(6, random),
            _ => few_axioms::sheet(1 + random.below(7), random),
        };
        if has_text(&sheet) {
            return sheet;
        }
    }
}

/// A sheet of about as many axioms as a text may have, on few leaves that are
/// named often.
#[must_use]
pub fn with_shared_leaves(random: &mut Random) -> Vec<u8> {
    let mut sheet = vec![0x01, 0x03, 0x00, 0x03, 0x01, 0x10, 0x00];
    let leaves: u8 = 3;
    sheet.extend([0x07, leaves, 0x01]);
    sheet.extend([0x20, leaves + 1, 0x00]);
    for _ in 0..82 + random.below(5) {
        sheet.extend([0x20, random.byte_below(3), random.byte_below(3)]);
    }
    sheet
}

/// How many records there are.
fn count(sheet: &[u8]) -> usize {
    let (mut at, mut count) = (0, 0);
    while at < sheet.len() {
        at += 1 + body_length(sheet[at]).expect("a sheet without faults");
        count += 1;
    }
    count
}

/// Adds a restriction by a role with and, or, or two nots, if there is room:
/// five records; answers the last.
fn add_restriction(sheet: &mut Vec<u8>, random: &mut Random) -> Option<u8> {
    let number = count(sheet);
    if number + 7 > MAX_RECORDS {
        return None;
    }
    let [top, role, first, second] = [0, 1, 2, 3].map(|more| (number + more) as u8);
    sheet.extend([0x01, 0x10, 0x00]);
    match random.below(3) {
        0 => sheet.extend([0x13, role, role, 0x11, 0x00]),
        1 => sheet.extend([0x14, role, role, 0x11, 0x00]),
        _ => sheet.extend([0x12, role, 0x12, first]),
    }
    // of two nots the second is the role, else the first record is
    let role = if sheet[sheet.len() - 2] == 0x12 {
        second
    } else {
        first
    };
    sheet.extend([random.pick(&[0x07, 0x08]), role, top]);
    Some(number as u8 + 4)
}

/// Such a sheet with a Boolean role that is in no axiom, if it then still has a
/// text.
#[must_use]
pub fn with_unused_roles(random: &mut Random) -> Vec<u8> {
    loop {
        let mut sheet = with_text(random);
        let added = add_restriction(&mut sheet, random).is_some();
        if added && has_text(&sheet) {
            return sheet;
        }
    }
}

/// A sheet that has no text, and where what first calls for that starts.
pub type WithoutText = (Vec<u8>, usize);

/// Such a sheet with an axiom more, which reaches a Boolean role, and another
/// after it.
#[must_use]
pub fn with_used_role(random: &mut Random) -> WithoutText {
    with_more(random, |sheet, random| {
        let top = count(sheet) as u8;
        let starts = [add_axiom(sheet, random)?];
        sheet.extend([0x20, top, top]);
        Some(starts)
    })
}

/// Such a sheet with a role inclusion more, and another after it.
#[must_use]
pub fn with_inclusion(random: &mut Random) -> WithoutText {
    with_more(random, |sheet, random| {
        Some([add_inclusion(sheet, random)?, add_inclusion(sheet, random)?])
    })
}

/// Such a sheet with an axiom that reaches a Boolean role and with a role
/// inclusion, in either order.
#[must_use]
pub fn with_used_role_and_inclusion(random: &mut Random) -> WithoutText {
    with_more(random, |sheet, random| {
        Some(if random.one_in(2) {
            [add_axiom(sheet, random)?, add_inclusion(sheet, random)?]
        } else {
            [add_inclusion(sheet, random)?, add_axiom(sheet, random)?]
        })
    })
}

/// A sheet that has a text, with what is added, and the first of the places that
/// this answers; of those whose parts are not too many.
fn with_more<const N: usize>(
    random: &mut Random,
    add: impl Fn(&mut Vec<u8>, &mut Random) -> Option<[usize; N]>,
) -> WithoutText {
    loop {
        let mut sheet = with_text(random);
        let Some(starts) = add(&mut sheet, random) else {
            continue;
        };
        if reference::read(&sheet).is_ok() {
            return (sheet, starts[0]);
        }
    }
}

/// Adds an axiom that reaches a Boolean role, if there is room: six records;
/// answers where it starts.
fn add_axiom(sheet: &mut Vec<u8>, random: &mut Random) -> Option<usize> {
    let restriction = add_restriction(sheet, random)?;
    let (start, top) = (sheet.len(), restriction - 4);
    let sides = random.pick(&[[top, restriction], [restriction, top]]);
    sheet.extend([0x20, sides[0], sides[1]]);
    Some(start)
}

/// Adds an inclusion of a leaf in a leaf or in a not of one, if there is room;
/// answers where it starts.
fn add_inclusion(sheet: &mut Vec<u8>, random: &mut Random) -> Option<usize> {
    let number = count(sheet);
    if number + 5 > MAX_RECORDS {
        return None;
    }
    let first = number as u8;
    sheet.extend([0x10, 0x00, random.pick(&[0x10, 0x11]), 0x00]);
    let mut second = first + 1;
    if random.one_in(2) {
        sheet.extend([0x12, second]);
        second += 1;
    }
    let start = sheet.len();
    sheet.extend([0x21, first, second]);
    Some(start)
}
