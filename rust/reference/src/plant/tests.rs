//! Document 02's rows, and what comes first.

use super::*;

const S1: &[u8] = &[
    0x01, 0x10, 0x00, 0x03, 0x00, 0x07, 0x01, 0x02, 0x20, 0x00, 0x03,
];
const S6: &[u8] = &[
    0x03, 0x00, 0x10, 0x00, 0x04, 0x00, 0x07, 0x01, 0x02, 0x20, 0x00, 0x03,
];

/// Role 0 within role 1.
const WITHIN: &[u8] = &[0x10, 0x00, 0x10, 0x01, 0x21, 0x00, 0x01];

/// The records of individuals with these bits.
fn individuals(bits: &[u16]) -> Vec<u8> {
    let record = |bits: &u16| [0x40, *bits as u8, (*bits >> 8) as u8];
    bits.iter().flat_map(record).collect()
}

/// Then connections by these roles.
fn joined(bits: &[u16], connections: &[(u8, u8, u8)]) -> Vec<u8> {
    let mut plant = individuals(bits);
    for &(from, to, role) in connections {
        plant.extend([0x41, from, 0, to, 0, role]);
    }
    plant
}

#[track_caller]
fn assert_checked(sheet: &[u8], plant: &[u8], check: PlantCheck, numbers: &[u64]) {
    let mut expected = [0, 0, 0, 0, 7, 7];
    let words = flatten(sheet).expect("a sheet").shape().words();
    expected[words..].fill(7);
    for &number in numbers {
        insert(&mut expected, number);
    }
    let mut set = [7; 6];
    assert_eq!(check_plant(sheet, plant, &mut set), Ok(check));
    assert_eq!(set, expected);
}

#[track_caller]
fn assert_refused(sheet: &[u8], plant: &[u8], number: u64) {
    let mut set = [7; 4];
    let refusal = Refusal { number, place: 0 };
    assert_eq!(check_plant(sheet, plant, &mut set), Err(refusal));
    assert_eq!(set, [7; 4]);
}

#[test]
fn rows_of_document_02() {
    let to_itself = joined(&[1], &[(0, 0, 0)]);
    assert_checked(S1, &to_itself, PlantCheck::Holds, &[63]);
    assert_checked(S1, &individuals(&[1]), PlantCheck::Item(0), &[17]);
    let pair = joined(&[0, 0], &[(0, 1, 0)]);
    assert_checked(WITHIN, &pair, PlantCheck::Pair(0, 1), &[0, 1, 2]);
    let with_fresh = joined(&[1, 4], &[(0, 1, 0)]);
    assert_checked(S6, &with_fresh, PlantCheck::Holds, &[99, 108, 132, 147]);
    let without = joined(&[1, 0], &[(0, 1, 0)]);
    assert_checked(S6, &without, PlantCheck::Item(0), &[0, 17, 33, 40]);
}

#[test]
fn all_that_breaks_is_told_in_order() {
    // Role 0 within role 1, and everything has name 0.
    let sheet = [WITHIN, &[0x03, 0x00, 0x01, 0x20, 0x04, 0x03]].concat();
    let plant = joined(&[1, 0, 1, 0], &[(3, 2, 0), (1, 3, 0), (1, 0, 0), (2, 2, 1)]);
    let breaches = breaches(&sheet, &plant).expect("a plant without faults");
    assert_eq!(breaches.individuals, [1, 3]);
    assert_eq!(breaches.pairs, [(1, 0), (1, 3), (3, 2)]);
    assert_eq!(breaches.first(), PlantCheck::Item(1));
    let pairs_alone = Breaches {
        individuals: Vec::new(),
        ..breaches
    };
    assert_eq!(pairs_alone.first(), PlantCheck::Pair(1, 0));
}

#[test]
fn fresh_names_count_as_drawn() {
    // Fresh name 2 stands for what has not name 0: drawn of what has it, and not
    // drawn of what has not.
    assert_checked(S6, &individuals(&[5]), PlantCheck::Item(0), &[165]);
    assert_checked(S6, &individuals(&[0]), PlantCheck::Holds, &[0]);
    assert_checked(S6, &joined(&[0], &[(0, 0, 0)]), PlantCheck::Holds, &[24]);
}

#[test]
fn a_connection_may_come_again() {
    let twice = joined(&[0, 0], &[(0, 1, 0), (0, 1, 0), (0, 1, 1)]);
    assert_checked(WITHIN, &twice, PlantCheck::Holds, &[0, 5, 10]);
}

#[test]
fn the_first_fault_of_a_record() {
    let full = individuals(&[0; 1_024]);
    let then = |more: &[u8]| [&full[..], more].concat();
    assert_checked(
        S1,
        &then(&[0x41, 0xFF, 3, 0xFF, 3, 0]),
        PlantCheck::Item(0),
        &[0, 12],
    );
    assert_refused(S1, &then(&[0x40, 0, 0]), 23);
    assert_refused(S1, &then(&[0x40, 2, 0]), 23);
    assert_refused(S1, &then(&[0x40, 2]), 22);
    assert_refused(S1, &then(&[0x42]), 22);
    assert_refused(S1, &then(&[0x41, 0, 4, 0, 0, 0]), 24);
}

#[test]
fn records_in_turn() {
    assert_refused(S1, &[], 25);
    assert_refused(S1, &[0x41, 0, 0, 0, 0, 0], 24);
    assert_refused(S1, &[0x40, 2, 0, 0x42], 24);
    assert_refused(S1, &[0x42, 0x40, 2, 0], 22);
    // the second individual is not there yet
    assert_refused(S1, &[0x40, 1, 0, 0x41, 1, 0, 0, 0, 0, 0x40, 1, 0], 24);
    assert_refused(S1, &joined(&[1], &[(0, 0, 1)]), 24);
    for bit in 1..16 {
        assert_refused(S1, &individuals(&[1 << bit]), 24);
    }
}

#[test]
fn the_sheet_and_the_set_come_before_the_plant() {
    let refusal = |number, place| Err(Refusal { number, place });
    assert_eq!(check_plant(&[0x03], &[0x42], &mut []), refusal(2, 0));
    assert_eq!(check_plant(&[0x04, 0x00], &[0x42], &mut []), refusal(5, 1));
    assert_eq!(check_plant(S6, &[0x42], &mut [7; 3]), refusal(10, 0));
    assert_eq!(check_plant(S6, &[0x42], &mut [7; 4]), refusal(22, 0));
    assert_eq!(check_plant(&[], &[], &mut []), refusal(10, 0));
}
