//! Made-up role inclusions, on leaves of their own.

use super::KIND;
use crate::made_up::Sheet;
use crate::random::Random;

/// The most records that [`add`] adds.
pub const MOST: usize = 6;

/// Adds one inclusion, a chain or a cycle of them, on roles below `roles`; in a
/// half of the sheets between leaves alone.
pub fn add(sheet: &mut Sheet, roles: usize, random: &mut Random) {
    match random.below(10) {
        0..=2 => chain(sheet, roles, 2, random),
        3 => chain(sheet, roles, 3, random),
        4 => cycle(sheet, roles, random),
        5 => {
            let first = boolean(sheet, 0x13, roles, random);
            let second = leaf(sheet, roles, random);
            sheet.push(&[KIND, first, second]);
        }
        6 => {
            let first = leaf(sheet, roles, random);
            let second = boolean(sheet, 0x14, roles, random);
            sheet.push(&[KIND, first, second]);
        }
        7 => {
            let first = but_not(sheet, roles, random);
            let second = leaf(sheet, roles, random);
            sheet.push(&[KIND, first, second]);
        }
        _ => {
            let (first, second) = (leaf(sheet, roles, random), not(sheet, roles, random));
            sheet.push(&[KIND, first, second]);
        }
    }
}

/// Adds an inclusion whose first role holds on the empty role set; the second may
/// be any number.
pub fn add_on_empty(sheet: &mut Sheet, first: u8, random: &mut Random) {
    let second = match random.below(4) {
        0 => random.byte(),
        _ => leaf(sheet, 4, random),
    };
    sheet.push(&[KIND, first, second]);
}

fn leaf(sheet: &mut Sheet, roles: usize, random: &mut Random) -> u8 {
    sheet.push(&[random.pick(&[0x10, 0x11]), random.byte_below(roles)])
}

/// Two leaves with an and or an or.
fn boolean(sheet: &mut Sheet, kind: u8, roles: usize, random: &mut Random) -> u8 {
    let (u, v) = (leaf(sheet, roles, random), leaf(sheet, roles, random));
    sheet.push(&[kind, u, v])
}

/// A leaf under a not, which holds on the empty role set.
fn not(sheet: &mut Sheet, roles: usize, random: &mut Random) -> u8 {
    let u = leaf(sheet, roles, random);
    sheet.push(&[0x12, u])
}

/// A leaf and not another.
fn but_not(sheet: &mut Sheet, roles: usize, random: &mut Random) -> u8 {
    let (u, v) = (leaf(sheet, roles, random), not(sheet, roles, random));
    sheet.push(&[0x13, u, v])
}

/// Each of so many leaves within the next.
fn chain(sheet: &mut Sheet, roles: usize, length: usize, random: &mut Random) {
    let leaves: Vec<u8> = (0..length).map(|_| leaf(sheet, roles, random)).collect();
    for pair in leaves.windows(2) {
        sheet.push(&[KIND, pair[0], pair[1]]);
    }
}

/// Each of two or three leaves within the next, and the last within the first.
fn cycle(sheet: &mut Sheet, roles: usize, random: &mut Random) {
    let length = 2 + random.below(2);
    let leaves: Vec<u8> = (0..length).map(|_| leaf(sheet, roles, random)).collect();
    for (at, &first) in leaves.iter().enumerate() {
        sheet.push(&[KIND, first, leaves[(at + 1) % length]]);
    }
}
