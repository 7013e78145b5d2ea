//! The calls about domino sets, against the independent reference.

mod product;

use comparison::suites::{self, report};
use comparison::{inclusions, misreference};
use lodhrussi::Counts;
use product::Product;

#[test]
fn worked_sheets() {
    suites::worked_numbers(&Product);
    report("worked sheets", &suites::worked_dominoes(&Product));
}

#[test]
fn claims_alike() {
    suites::judged_claims(&Product);
}

#[test]
fn small_sheets() {
    let tally = suites::small_dominoes(&Product);
    report("sheets with c + L up to 7", &tally);
}

#[test]
fn large_sheets() {
    let tally = suites::large_dominoes(&Product);
    report("sheets with c + L of 8 and 9", &tally);
}

#[test]
fn damaged_sheets() {
    let tally = suites::damaged_dominoes(&Product);
    report("damaged sheets", &tally);
}

#[test]
fn faulty_references() {
    let tally = misreference::suites::made_up_dominoes(&Product);
    report("faulty references", &tally);
}

#[test]
fn role_inclusions() {
    let tally = inclusions::suites::against_axioms(&Product);
    report("role inclusions", &tally);
}

#[test]
fn lists_of_calls() {
    let tally = suites::listed_calls(&Product);
    report("strikes and settlings in a row", &tally);
}

/// Counts with so many marks, of one kind or of two.
fn with_marks(marks: u64, links: u64) -> [Counts; 5] {
    let half = marks / 2;
    let kinds = [
        [marks, 0, 0, 0],
        [0, marks, 0, 0],
        [0, 0, marks, 0],
        [0, 0, 0, marks],
        [0, half, 0, marks - half],
    ];
    kinds.map(|[traits, fresh, some, only]| Counts {
        traits,
        fresh,
        some,
        only,
        links,
    })
}

#[test]
fn words_needed() {
    let of_sheets = [
        (0, 0, 1),
        (2, 1, 1),
        (3, 1, 4),
        (8, 1, 4_096),
        (12, 0, 262_144),
    ];
    let large = [(31, 0, 1 << 56), (31, 1, 1 << 58), (0, 34, 1 << 62)];
    let too_large = [
        (34, 1),
        (35, 0),
        (1 << 32, 0),
        (1 << 63, 1 << 63),
        (u64::MAX, u64::MAX),
    ];
    let too_large = too_large.map(|(marks, links)| (marks, links, usize::MAX));
    for (marks, links, words) in of_sheets.into_iter().chain(large).chain(too_large) {
        for counts in with_marks(marks, links) {
            assert_eq!(lodhrussi::words_needed(counts), words, "{counts:?}");
        }
    }
}
