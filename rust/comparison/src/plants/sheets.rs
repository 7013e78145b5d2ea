//! Sheets that plants are drawn for.

use crate::made_up::Sheet;
use crate::random::Random;
use crate::{few_axioms, inclusions, made_up};

/// A sheet without faults whose parts and roles come to at most `size`.
#[must_use]
pub fn sheet(size: usize, random: &mut Random) -> Vec<u8> {
    match random.below(8) {
        _ if size == 0 => made_up::small_sheet(0, random),
        0 | 1 => made_up::small_sheet(size, random),
        2 => few_axioms::unmet_sheet(size, random),
        3 => inclusions_alone(size, random),
        _ => few_axioms::sheet(size, random),
    }
}

/// A sheet without faults whose parts and roles come to 10 to 12.
#[must_use]
pub fn large_sheet(random: &mut Random) -> Vec<u8> {
    let size = 10 + random.below(3);
    loop {
        let sheet = match random.below(3) {
            0 => few_axioms::sheet(size, random),
            1 => made_up::sheet(random).bytes,
            _ => inclusions_alone(size, random),
        };
        let is_large = |counts: reference::Counts| counts.marks() + counts.links >= 10;
        if reference::read(&sheet).is_ok_and(is_large) {
            return sheet;
        }
    }
}

/// Names and roles that come to at most `size`, which is not 0, and role
/// inclusions, so that no individual breaks anything.
fn inclusions_alone(size: usize, random: &mut Random) -> Vec<u8> {
    let mut sheet = Sheet::default();
    let roles = 1 + random.below(size.min(4));
    let names = random.below(size - roles + 1);
    for name in 0..names {
        sheet.push(&[0x03, name as u8]);
    }
    for _ in 0..1 + random.below(3) {
        inclusions::add(&mut sheet, roles, random);
    }
    sheet.bytes
}
