//! Document 01's worked sheets, and the readings a sheet can tell apart.

use super::*;

const S1: &[u8] = &[
    0x01, 0x10, 0x00, 0x03, 0x00, 0x07, 0x01, 0x02, 0x20, 0x00, 0x03,
];

fn s1_then(more: &[u8]) -> Vec<u8> {
    [S1, more].concat()
}

#[track_caller]
fn assert_counts(sheet: &[u8], [traits, fresh, some, only, links]: [u64; 5]) {
    let counts = Counts {
        traits,
        fresh,
        some,
        only,
        links,
    };
    assert_eq!(read(sheet), Ok(counts));
    let marks = counts.marks() as usize;
    assert_eq!(list_marks(sheet, &mut vec![0; 3 * marks]), Ok(marks));
}

#[track_caller]
fn assert_refused(sheet: &[u8], number: u64, place: u64) {
    let refusal = Refusal { number, place };
    assert_eq!(read(sheet), Err(refusal));
    let mut list = [0xAA; 40];
    assert_eq!(list_marks(sheet, &mut list), Err(refusal));
    assert_eq!(list, [0xAA; 40]);
}

#[track_caller]
fn assert_marks(sheet: &[u8], marks: &[[u8; 3]]) {
    let mut list = vec![0xAA; 3 * marks.len() + 5];
    assert_eq!(list_marks(sheet, &mut list), Ok(marks.len()));
    let (used, kept) = list.split_at(3 * marks.len());
    assert_eq!(used, marks.as_flattened());
    assert_eq!(kept, [0xAA; 5]);
}

#[test]
fn worked_sheets_are_read() {
    assert_counts(&[], [0, 0, 0, 0, 0]);
    assert_counts(S1, [1, 0, 1, 0, 1]);
    assert_counts(&s1_then(&[0x02, 0x20, 0x02, 0x05]), [1, 0, 1, 0, 1]);
    let s3 = s1_then(&[0x11, 0x00, 0x02, 0x08, 0x05, 0x06, 0x20, 0x02, 0x07]);
    assert_counts(&s3, [1, 0, 1, 1, 1]);
    let s4 = [0x10, 0x00, 0x01, 0x08, 0x00, 0x01, 0x02, 0x20, 0x02, 0x03];
    assert_counts(&s4, [0, 0, 1, 0, 1]);
    let s5 = [
        0x01, 0x03, 0x00, 0x10, 0x00, 0x08, 0x02, 0x00, 0x06, 0x01, 0x03, 0x20, 0x00, 0x04,
    ];
    assert_counts(&s5, [1, 0, 0, 1, 1]);
    assert_counts(&[0x03, 0x00], [1, 0, 0, 0, 0]);
    assert_counts(&[0x03, 0x0B], [12, 0, 0, 0, 0]);
}

#[test]
fn worked_sheets_are_refused() {
    assert_refused(&[0x03, 0x0C], 4, 0);
    assert_refused(&[0x03, 0x0B, 0x10, 0x00], 9, 0);
    assert_refused(&[0x04, 0x00], 5, 1);
    assert_refused(&[0x03, 0x00, 0x04, 0x00, 0x05, 0x01, 0x01], 7, 6);
    assert_refused(&[0x10, 0x00, 0x12, 0x00, 0x01, 0x07, 0x01, 0x02], 8, 5);
}

#[test]
fn the_marks_of_s6_are_listed() {
    let s6 = [
        0x03, 0x00, 0x10, 0x00, 0x04, 0x00, 0x07, 0x01, 0x02, 0x20, 0x00, 0x03,
    ];
    assert_counts(&s6, [1, 1, 1, 0, 1]);
    assert_marks(&s6, &[[0, 0, 0], [2, 3, 0], [1, 2, 0]]);
}

#[test]
fn a_short_list_is_refused_and_kept() {
    let mut list = [7; 5];
    let refusal = Refusal {
        number: 12,
        place: 0,
    };
    assert_eq!(list_marks(S1, &mut list), Err(refusal));
    assert_eq!(list, [7; 5]);
    assert_eq!(list_marks(S1, &mut [0; 6]), Ok(2));
    assert_eq!(list_marks(&[], &mut []), Ok(0));
}

#[test]
fn kinds_and_bodies() {
    for kind in [0x00, 0x09, 0x0F, 0x15, 0x1F, 0x22, 0xFF] {
        assert_refused(&[0x01, kind], 1, 1);
    }
    for kind in [0x03, 0x04, 0x10, 0x11, 0x12] {
        assert_refused(&[0x01, kind], 2, 1);
    }
    for kind in [0x05, 0x06, 0x07, 0x08, 0x13, 0x14, 0x20, 0x21] {
        assert_refused(&[0x01, kind, 0x00], 2, 1);
    }
    assert_refused(&[0x11, 0x04], 4, 0);
}

#[test]
fn the_256th_record_is_refused_before_its_kind() {
    let full = [0x01; 255];
    assert_counts(&full, [0, 0, 0, 0, 0]);
    for next in [0x01, 0x03, 0xFF] {
        assert_refused(&[&full[..], &[next]].concat(), 3, 255);
    }
}

#[test]
fn each_reference_in_turn() {
    // A reference's faults stand at its byte; the first reference's come before
    // the second's.
    assert_refused(&[0x10, 0x00, 0x05, 0x01, 0x00], 5, 3);
    assert_refused(&[0x10, 0x00, 0x05, 0x00, 0x01], 6, 3);
    let named = [0x01, 0x04, 0x00, 0x04, 0x01, 0x10, 0x00];
    let then = |body: [u8; 2]| [&named[..], &[0x06], &body].concat();
    assert_refused(&then([1, 4]), 7, 8);
    assert_refused(&then([2, 1]), 7, 9);
    assert_refused(&then([2, 3]), 6, 9);
    assert_refused(&then([2, 4]), 5, 9);
    // The first reference has named the record when the second is read.
    assert_refused(&then([2, 2]), 7, 9);
}

#[test]
fn a_record_of_the_wrong_sort() {
    assert_refused(&[0x10, 0x00, 0x07, 0x00, 0x00], 6, 4);
    assert_refused(&[0x01, 0x10, 0x00, 0x07, 0x00, 0x01], 16, 4);
    let axiom = [0x01, 0x20, 0x00, 0x00];
    let then = |more: &[u8]| [&axiom[..], more].concat();
    assert_refused(&then(&[0x04, 0x01]), 17, 5);
    assert_refused(&then(&[0x12, 0x01]), 17, 5);
    assert_refused(&then(&[0x10, 0x00, 0x07, 0x02, 0x01]), 17, 8);
    // What was named before is told after its sort.
    let role = [0x01, 0x10, 0x00, 0x12, 0x01, 0x12, 0x02];
    assert_refused(&[&role[..], &[0x04, 0x02]].concat(), 6, 8);
    let concept = [0x01, 0x04, 0x00, 0x04, 0x01];
    assert_refused(&[&concept[..], &[0x12, 0x01]].concat(), 16, 6);
}

#[test]
fn a_role_that_holds_on_the_empty_set() {
    let not_role = [0x01, 0x10, 0x00, 0x12, 0x01];
    // By itself no fault; the filler's faults come first.
    assert_counts(&not_role, [0, 0, 0, 0, 1]);
    let then = |more: &[u8]| [&not_role[..], more].concat();
    assert_refused(&then(&[0x08, 0x02, 0x03]), 5, 7);
    assert_refused(&then(&[0x08, 0x02, 0x01]), 6, 7);
    assert_refused(&then(&[0x08, 0x02, 0x00]), 8, 5);
    assert_refused(&then(&[0x14, 0x02, 0x01, 0x07, 0x03, 0x00]), 8, 8);
    assert_counts(
        &then(&[0x13, 0x02, 0x01, 0x07, 0x03, 0x00]),
        [0, 0, 0, 0, 1],
    );
    assert_counts(&then(&[0x12, 0x02, 0x07, 0x03, 0x00]), [0, 0, 0, 0, 1]);
}

#[test]
fn role_inclusions() {
    let not_role = [0x01, 0x10, 0x00, 0x12, 0x01];
    let then = |more: &[u8]| [&not_role[..], more].concat();
    // The second role may hold on the empty set; the references' faults come first.
    assert_counts(&then(&[0x21, 0x01, 0x01]), [0, 0, 0, 0, 1]);
    assert_counts(&then(&[0x21, 0x01, 0x02]), [0, 0, 0, 0, 1]);
    assert_counts(&then(&[0x11, 0x03, 0x21, 0x03, 0x02]), [0, 0, 0, 0, 4]);
    assert_refused(&then(&[0x21, 0x02, 0x01]), 8, 5);
    assert_refused(&then(&[0x21, 0x02, 0x03]), 5, 7);
    assert_refused(&then(&[0x21, 0x02, 0x00]), 16, 7);
    assert_refused(&then(&[0x21, 0x02, 0x02]), 7, 7);
    assert_refused(&then(&[0x21, 0x00, 0x02]), 16, 6);
    assert_refused(&then(&[0x14, 0x02, 0x01, 0x21, 0x03, 0x01]), 8, 8);
    assert_counts(
        &then(&[0x13, 0x02, 0x01, 0x21, 0x03, 0x01]),
        [0, 0, 0, 0, 1],
    );
    // It names its roles, and is never named.
    assert_refused(&then(&[0x21, 0x01, 0x02, 0x12, 0x02]), 7, 9);
    assert_refused(&then(&[0x21, 0x01, 0x01, 0x04, 0x03]), 17, 9);
    assert_refused(&then(&[0x21, 0x01, 0x01, 0x21, 0x01, 0x03]), 17, 10);
}

#[test]
fn fillers_that_need_no_fresh_name() {
    // Left side: some link 0 is not not name 0, so only link 0 is not name 0.
    let odd = [
        0x03, 0x00, 0x10, 0x00, 0x04, 0x00, 0x04, 0x02, 0x07, 0x01, 0x03, 0x20, 0x04, 0x00,
    ];
    assert_marks(&odd, &[[0, 0, 0], [3, 4, 1], [1, 3, 1]]);
    let even = [&odd[..11], &[0x20, 0x00, 0x04]].concat();
    assert_marks(&even, &[[0, 0, 0], [2, 4, 0]]);
    // Not nothing is everything.
    let top = [
        0x02, 0x10, 0x00, 0x04, 0x00, 0x08, 0x01, 0x02, 0x20, 0x03, 0x00,
    ];
    assert_marks(&top, &[[2, 3, 1]]);
    // Name and everything is not simplified.
    let and = [
        0x03, 0x00, 0x01, 0x10, 0x00, 0x05, 0x00, 0x01, 0x07, 0x02, 0x03, 0x20, 0x01, 0x04,
    ];
    assert_marks(&and, &[[0, 0, 0], [2, 4, 0], [1, 3, 0]]);
}

#[test]
fn fresh_axioms_wait_for_the_written_ones() {
    let sheet = [
        0x01, // 0 everything
        0x10, 0x00, // 1 role
        0x07, 0x01, 0x00, // 2 some 1 is 0
        0x08, 0x01, 0x02, // 3 only 1 is 2
        0x07, 0x01, 0x00, // 4 some 1 is 0
        0x07, 0x01, 0x04, // 5 some 1 is 4
        0x07, 0x01, 0x00, // 6 some 1 is 0
        0x20, 0x05, 0x03, // 7 every 5 is 3
        0x20, 0x00, 0x06, // 8 every 0 is 6
    ];
    let marks = [
        [3, 5, 1],
        [1, 4, 1],
        [3, 3, 0],
        [1, 2, 0],
        [2, 6, 0],
        [3, 4, 1],
        [2, 2, 0],
    ];
    // Record 2 shares the part of record 6, which is met before it.
    assert_marks(&sheet, &marks[..6]);
    let mut list = [0xAA; 21];
    assert_eq!(apart::list_marks(&sheet, &mut list), Ok(7));
    assert_eq!(list, marks.as_flattened());
}

#[test]
fn one_leaf_is_the_filler_of_many() {
    let sheet = [
        0x03, 0x00, 0x10, 0x00, 0x07, 0x01, 0x00, 0x08, 0x01, 0x00, 0x20, 0x02, 0x03,
    ];
    assert_marks(&sheet, &[[0, 0, 0], [3, 2, 1], [1, 0, 1], [3, 3, 0]]);
}

#[test]
fn parts_and_roles_come_to_at_most_twelve() {
    // Beside one role so many restrictions, each with two nots more in its role.
    let with = |restrictions: usize| {
        let mut sheet = vec![0x01, 0x10, 0x00];
        let mut next = 2;
        for turn in 0..restrictions {
            let mut role = 1;
            for _ in 0..2 * turn {
                sheet.extend([0x12, role]);
                role = next;
                next += 1;
            }
            sheet.extend([0x07, role, 0x00]);
            sheet.extend([0x20, 0x00, next]);
            next += 2;
        }
        sheet
    };
    assert_counts(&with(11), [0, 0, 11, 0, 1]);
    assert_refused(&with(12), 9, 0);
    assert_refused(&with(14), 9, 0);
}

#[test]
fn one_claim_has_one_part_however_often() {
    let with = |restrictions: u8| {
        let mut sheet = vec![0x01, 0x10, 0x00];
        for r in 0..restrictions {
            sheet.extend([0x07, 0x01, 0x00]);
            sheet.extend([0x20, 0x00, 2 + 2 * r]);
        }
        sheet
    };
    let apart = |restrictions| apart::read(&with(restrictions)).map(|counts| counts.marks());
    let refusal = Refusal {
        number: 9,
        place: 0,
    };
    for restrictions in [1, 11, 12, 126] {
        assert_counts(&with(restrictions), [0, 0, 1, 0, 1]);
    }
    assert_eq!(apart(1), Ok(1));
    assert_eq!(apart(11), Ok(11));
    assert_eq!(apart(12), Err(refusal));
    assert_eq!(apart(126), Err(refusal));
}

#[test]
fn unused_records_count_only_by_their_numbers() {
    let sheet = [0x03, 0x02, 0x10, 0x01, 0x07, 0x01, 0x00];
    assert_counts(&sheet, [3, 0, 0, 0, 2]);
}
