//! The calls about a sheet alone, against the independent reference.

mod product;

use comparison::random::Random;
use comparison::suites::{self, report};
use comparison::{made_up, misreference};
use product::Product;

/// Every refusal that the two calls have.
const REFUSALS: [usize; 12] = [1, 2, 3, 4, 5, 6, 7, 8, 9, 12, 16, 17];

const MADE_UP: u64 = 30_000;

#[test]
fn worked_sheets() {
    suites::worked_counts(&Product);
    let tally = suites::worked_reading(&Product);
    report("reading, worked sheets", &tally);
}

#[test]
fn claims_alike() {
    suites::listed_claims(&Product);
}

#[test]
fn repeating_sheets() {
    let tally = suites::repeating_reading(&Product);
    report("reading, sheets that repeat claims", &tally);
}

#[test]
fn made_up_sheets() {
    let tally = suites::made_up_reading(&Product);
    report("reading, made-up sheets", &tally);
    assert!(4 * tally.accepted >= tally.sheets);
    for number in REFUSALS {
        assert!(tally.refused[number] >= 100, "refusal {number} is rare");
    }
}

#[test]
fn faulty_references() {
    misreference::suites::fixed(&Product);
    let tally = misreference::suites::made_up_reading(&Product);
    report("reading, faulty references", &tally);
}

#[test]
fn made_up_sheets_have_no_byte_faults() {
    let mut random = Random::seeded(3);
    let mut accepted = 0;
    for _ in 0..MADE_UP {
        match reference::read(&made_up::sheet(&mut random).bytes) {
            Ok(_) => accepted += 1,
            Err(refusal) => assert_eq!(refusal.number, 9),
        }
    }
    assert!(2 * accepted >= MADE_UP);
}
