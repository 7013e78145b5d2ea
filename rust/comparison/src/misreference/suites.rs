//! The comparisons of one engine with the reference, on faulty references.

use super::worked::{BEFORE, BEFORE_INCLUSION, FAULTY, OF_INCLUSION, TWO_FAULTS};
use super::{sheet, Case};
use crate::hex::Hex;
use crate::random::Random;
use crate::suites::times;
use crate::{dominoes, reading, worked, Judging, Reading};
use reference::Refusal;

/// How often each case is to be seen.
const OFTEN: u64 = 300;

/// The refusals of fixed sheets, without the reference.
///
/// # Panics
///
/// Where the engine answers otherwise.
pub fn fixed(engine: &impl Reading) {
    let whole = worked::REFUSED.map(|row| ("", row));
    let after = FAULTY.into_iter().chain(TWO_FAULTS);
    let rows = whole.into_iter().chain(after.map(|row| (BEFORE, row)));
    let rows = rows.chain(OF_INCLUSION.map(|row| (BEFORE_INCLUSION, row)));
    for (before, (hex, number, place)) in rows {
        let sheet = [worked::from_hex(before), worked::from_hex(hex)].concat();
        let refusal = Refusal { number, place };
        assert_eq!(engine.read(&sheet), Err(refusal), "{}", Hex(&sheet));
        let mut list = [9; 36];
        let listed = engine.list_marks(&sheet, &mut list);
        assert_eq!(listed, Err(refusal), "{}", Hex(&sheet));
        assert_eq!(list, [9; 36]);
    }
}

/// The calls about a sheet alone, on made-up sheets: each case as often as the
/// others. The refusal is also the one that was aimed at.
///
/// # Panics
///
/// Where the engine answers otherwise, or a case is rare.
pub fn made_up_reading(engine: &impl Reading) -> reading::Tally {
    let mut random = Random::seeded(10);
    let mut tally = reading::Tally::default();
    for _ in 0..times(320) {
        for case in Case::all() {
            let (sheet, place) = sheet(case, &mut random);
            let refusal = Refusal {
                number: case.number(),
                place: place as u64,
            };
            assert_eq!(engine.read(&sheet), Err(refusal), "{}", Hex(&sheet));
            tally.compare(engine, &sheet, &mut random);
        }
    }
    assert!(tally.misreferences.rarest() >= OFTEN, "{tally}");
    assert!(tally.inclusions.named >= OFTEN, "{tally}");
    tally
}

/// The calls about domino sets, likewise.
///
/// # Panics
///
/// Where engine and reference differ, or a case is rare.
pub fn made_up_dominoes(engine: &impl Judging) -> dominoes::Tally {
    let mut random = Random::seeded(16);
    let mut tally = dominoes::Tally::default();
    for _ in 0..times(80) {
        for case in Case::all() {
            let (sheet, _) = sheet(case, &mut random);
            tally.compare(engine, &sheet, &mut random);
        }
    }
    assert!(tally.misreferences.rarest() >= OFTEN, "{tally}");
    tally
}
