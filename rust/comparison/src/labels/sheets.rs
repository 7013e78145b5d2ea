//! Sheets of so many parts and roles.

use crate::made_up::{self, Sheet};
use crate::random::Random;
use crate::{few_axioms, inclusions};

/// A sheet whose parts and roles come to `size`, which is 10 or more.
pub(super) fn sheet(turn: usize, size: usize, random: &mut Random) -> Vec<u8> {
    match turn % 4 {
        0 => made_up_sheet(size, random),
        1 => chain(size, random),
        _ => few_axioms::sheet(size, random),
    }
}

fn made_up_sheet(size: usize, random: &mut Random) -> Vec<u8> {
    loop {
        let sheet = made_up::small_sheet(size, random);
        let counts = reference::read(&sheet).expect("a sheet without faults");
        if counts.marks() + counts.links == size as u64 {
            return sheet;
        }
    }
}

/// Each name needs the next, and the last is or needs nothing, so that labels go one
/// after another; in some of the sheets everything has the first name.
fn chain(size: usize, random: &mut Random) -> Vec<u8> {
    let mut sheet = Sheet::default();
    let roles = 1 + random.below(4);
    let restrictions = (size - roles) / 2;
    let names: Vec<u8> = (restrictions..size - roles)
        .map(|name| sheet.push(&[0x03, (name - restrictions) as u8]))
        .collect();
    let leaves: Vec<u8> = (0..roles)
        .map(|role| sheet.push(&[random.pick(&[0x10, 0x11]), role as u8]))
        .collect();
    let (top, bottom) = (sheet.push(&[0x01]), sheet.push(&[0x02]));
    for turn in 0..restrictions {
        let next = names.get(turn + 1).copied().unwrap_or(bottom);
        let restriction = sheet.push(&[0x07, leaves[turn % roles], next]);
        sheet.push(&[0x20, names[turn], restriction]);
    }
    if let Some(&last) = names.get(restrictions) {
        sheet.push(&[0x20, last, bottom]);
    }
    if random.one_in(3) {
        sheet.push(&[0x20, top, names[0]]);
    }
    if random.one_in(2) {
        inclusions::add(&mut sheet, roles, random);
    }
    sheet.bytes
}
