//! Queues of which every line is given.

use super::lines::whole;
use super::{report, QUEUE};
use comparison::program::assert_same;
use comparison::queues::{
    slot, slot_telling, slots, worked_slots, END_KIND, LONGEST, SLOT, SLOT_KIND, WORKED,
};
use comparison::random::Random;
use comparison::{claims, worked};
use std::time::Duration;

/// Document 02's queue of S1 and S2, without its end.
fn two_slots() -> Vec<u8> {
    worked_slots(&mut Random::seeded(40))
}

/// Slots, then some bytes.
fn then(slots: &[u8], more: &[u8]) -> Vec<u8> {
    [slots, more].concat()
}

/// Those of document 02's lines that a cut queue keeps, then refusal 15.
fn refused_after(slots: usize) -> String {
    WORKED[..slots].concat() + "refused 15\n"
}

#[test]
fn the_worked_queue() {
    let queue = then(&two_slots(), &[END_KIND]);
    let comparisons = QUEUE.assert_prints(&queue, &WORKED.concat());
    report("the worked queue", comparisons);
}

#[test]
fn the_worked_queue_in_chunks() {
    let queue = then(&two_slots(), &[END_KIND]);
    let mut comparisons = 0;
    for size in [1, 2, 3, 7, 61, 255, 257, 766, 767, 768, 769, 770, 1_537] {
        let printed = QUEUE.printed_for_chunks(queue.chunks(size), Duration::from_micros(100));
        comparisons += assert_same(&printed, &WORKED.concat());
    }
    report("in chunks", comparisons);
}

#[test]
fn the_worked_sheets() {
    let mut random = Random::seeded(41);
    let sheets: Vec<_> = worked::all().collect();
    let mut queue = slots(&sheets, &mut random);
    queue.push(END_KIND);
    let expected = "0 met 1\n1 met 16\n2 unmet 0\n3 unmet 0\n4 unmet 0\n5 met 16\n6 met 85\n\
                    7 met 4\n8 met 4\n9 unmet 0\n10 met 9\n11 met 8\n12 met 48\n\
                    13 refused 10\n14 refused 4\n15 refused 9\n16 refused 5\n\
                    17 refused 7\n18 refused 8\n19 refused 6\n20 refused 16\n\
                    21 refused 17\n22 refused 17\n23 refused 17\n24 refused 17\n\
                    25 refused 8\n\
                    sheets 26 met 9 unmet 4 refused 13 survivors 191\n";
    let comparisons = QUEUE.assert_prints(&queue, expected);
    report("worked sheets", comparisons);
}

#[test]
fn sheets_that_repeat_claims() {
    let rows = claims::judged();
    let sheets: Vec<_> = rows.iter().map(|row| &row.sheet).collect();
    let mut queue = slots(&sheets, &mut Random::seeded(45));
    queue.push(END_KIND);
    let says: Vec<_> = rows
        .iter()
        .map(|row| match row.judgement.survivors {
            0 => "unmet 0".into(),
            survivors => format!("met {survivors}"),
        })
        .collect();
    let comparisons = QUEUE.assert_prints(&queue, &whole(&says));
    report("sheets that repeat claims", comparisons);
}

#[test]
fn each_refusal_of_a_slot() {
    let mut random = Random::seeded(42);
    let sheets = [
        (1, vec![0x09]),
        (2, vec![0x03]),
        (3, vec![0x01; 256]),
        (4, vec![0x03, 12]),
        (5, vec![0x04, 0]),
        (6, vec![0x10, 0, 0x04, 0]),
        (7, vec![0x03, 0, 0x04, 0, 0x05, 1, 1]),
        (8, vec![0x10, 0, 0x12, 0, 0x01, 0x07, 1, 2]),
        (9, vec![0x03, 11, 0x10, 0]),
        (10, vec![0x03, 9]),
        (14, vec![0x01; LONGEST + 1]),
        (16, vec![0x01, 0x12, 0]),
        (17, vec![0x01, 0x20, 0, 0, 0x04, 1]),
    ];
    let says = sheets
        .each_ref()
        .map(|(number, _)| format!("refused {number}"));
    let mut queue = slots(&sheets.map(|(_, sheet)| sheet), &mut random);
    queue.push(END_KIND);
    let comparisons = QUEUE.assert_prints(&queue, &whole(&says));
    report("each refusal of a slot", comparisons);
}

#[test]
fn a_cut_at_each_byte() {
    let queue = two_slots();
    let mut comparisons = 0;
    for end in 0..=queue.len() {
        comparisons += QUEUE.assert_prints(&queue[..end], &refused_after(end / SLOT));
    }
    report("cut at each byte", comparisons);
}

#[test]
fn a_cut_at_each_byte_of_a_slot_too_long() {
    let mut random = Random::seeded(43);
    let first = slot(&worked::from_hex(worked::S1), &mut random);
    let long = slot_telling(LONGEST + 1, &[], &mut random);
    let mut comparisons = 0;
    for end in 1..SLOT {
        comparisons += QUEUE.assert_prints(&then(&first, &long[..end]), &refused_after(1));
    }
    let expected = "0 met 16\n1 refused 14\n\
                    sheets 2 met 1 unmet 0 refused 1 survivors 16\n";
    comparisons += QUEUE.assert_prints(&[&first[..], &long, &[END_KIND]].concat(), expected);
    report("a slot too long, cut at each byte", comparisons);
}

#[test]
fn each_unknown_kind() {
    let queue = two_slots();
    let mut comparisons = 0;
    for kind in (0..=u8::MAX).filter(|kind| ![SLOT_KIND, END_KIND].contains(kind)) {
        let more = then(&[kind, END_KIND], &queue);
        comparisons += QUEUE.assert_prints(&more, &refused_after(0));
        comparisons += QUEUE.assert_prints(&then(&queue[..SLOT], &more), &refused_after(1));
    }
    report("unknown kinds", comparisons);
}

#[test]
fn bytes_after_the_end() {
    let mut random = Random::seeded(44);
    let queue = two_slots();
    let rests = [
        vec![END_KIND],
        vec![SLOT_KIND],
        vec![0],
        b"refused 15\n".to_vec(),
        queue.clone(),
        then(&queue, &[END_KIND]),
        random.bytes(1_000_000),
    ];
    let mut comparisons = 0;
    for rest in rests {
        let ended = then(&[END_KIND], &rest);
        let none = "sheets 0 met 0 unmet 0 refused 0 survivors 0\n";
        comparisons += QUEUE.assert_prints(&ended, none);
        comparisons += QUEUE.assert_prints(&then(&queue, &ended), &WORKED.concat());
    }
    report("bytes after the end", comparisons);
}
