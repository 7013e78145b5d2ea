//! Faults of references: number and place (document 02, N6).

use comparison::misreference::worked::{BEFORE, FAULTY};
use comparison::misreference::{suites, Case};
use comparison::records::reference_at;
use comparison::suites::report;
use comparison::worked::from_hex;
use comparison::Reference;

#[test]
fn fixed_sheets() {
    suites::fixed(&Reference);
}

/// The rows are each case once.
#[test]
fn every_case_has_a_row() {
    let mut cases = Case::all();
    assert_eq!(cases.len(), 72);
    for (hex, number, place) in FAULTY {
        let sheet = [from_hex(BEFORE), from_hex(hex)].concat();
        let (kind, which) = reference_at(&sheet, place as usize).expect(hex);
        let fits = |case: &Case| (case.kind, case.which, case.number()) == (kind, which, number);
        let found = cases.iter().position(fits).expect(hex);
        cases.swap_remove(found);
    }
    assert_eq!(cases, []);
}

/// Generator and reference are written apart, and agree.
#[test]
fn made_up_sheets() {
    let tally = suites::made_up_reading(&Reference);
    report("reference, faulty references", &tally);
}
