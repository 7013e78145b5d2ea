//! Sheets of which few dominoes are left, though they have many roles or parts.

use crate::inclusions;
use crate::made_up::Sheet;
use crate::plants;
use crate::random::Random;

/// A sheet whose parts and roles come to at most `size`; mostly one that is met.
#[must_use]
pub fn sheet(size: usize, random: &mut Random) -> Vec<u8> {
    plants::Ground::small(size, random).sheet
}

/// A sheet with four roles, at most one name, and mostly a restriction and role
/// inclusions.
#[must_use]
pub fn four_roles(random: &mut Random) -> Vec<u8> {
    let mut sheet = Sheet::default();
    let top = sheet.push(&[0x01]);
    let filler = match random.below(3) {
        0 => sheet.push(&[0x02]),
        1 => sheet.push(&[0x03, 0]),
        _ => top,
    };
    let role = sheet.push(&[random.pick(&[0x10, 0x11]), 3]);
    if !random.one_in(4) {
        let restriction = sheet.push(&[random.pick(&[0x07, 0x08]), role, filler]);
        sheet.push(&[0x20, random.pick(&[top, filler]), restriction]);
    }
    for _ in 0..random.below(6) {
        inclusions::add(&mut sheet, 4, random);
    }
    sheet.bytes
}

/// A sheet whose parts and roles come to `size`, which is 9 or more. Everything or
/// nothing has each name but one or two; mostly there is a restriction whose filler
/// has a fresh name.
#[must_use]
pub fn few_labels(size: usize, random: &mut Random) -> Vec<u8> {
    let mut sheet = Sheet::default();
    let is_joined = !random.one_in(3);
    let names = if is_joined { size - 3 } else { size };
    for name in 0..names {
        sheet.push(&[0x03, name as u8]);
    }
    let (top, bottom) = (sheet.push(&[0x01]), sheet.push(&[0x02]));
    let free = [random.below(names), random.below(names)];
    for name in (0..names).filter(|name| !free.contains(name)) {
        let name = name as u8;
        let sides = random.pick(&[[top, name], [name, bottom]]);
        sheet.push(&[0x20, sides[0], sides[1]]);
    }
    if is_joined {
        let [one, other] = free.map(|name| name as u8);
        let role = sheet.push(&[random.pick(&[0x10, 0x11]), 0]);
        let filler = match random.below(2) {
            0 => sheet.push(&[0x04, one]),
            _ => sheet.push(&[random.pick(&[0x05, 0x06]), one, other]),
        };
        let restriction = sheet.push(&[random.pick(&[0x07, 0x08]), role, filler]);
        sheet.push(&[0x20, random.pick(&[top, other]), restriction]);
    }
    sheet.bytes
}
