//! Every length, as many slots as there may be, and every number of names and
//! roles.

use super::lines::{slot_lines, whole};
use super::{report, QUEUE};
use comparison::queues::{slot_telling, slots, END_KIND, LONGEST, SLOT_KIND};
use comparison::random::Random;
use comparison::worked;

const MOST_SLOTS: usize = 4_096;

/// A name, then 254 conjunctions of it with itself: the longest sheet without a
/// fault. One record more is begun.
fn too_many_records() -> Vec<u8> {
    let mut sheet = vec![0x03, 0];
    sheet.extend([0x05, 0, 0].repeat(254));
    sheet.push(0x01);
    assert_eq!(sheet.len(), LONGEST);
    sheet
}

/// What is said of so many bytes of it.
fn says_of_beginning(length: usize) -> &'static str {
    match length {
        0 => "met 1",
        LONGEST => "refused 3",
        length if length > LONGEST => "refused 14",
        length if length % 3 == 2 => "met 4",
        _ => "refused 2",
    }
}

#[test]
fn each_length() {
    let mut random = Random::seeded(50);
    let sheet = too_many_records();
    let lengths: Vec<usize> = (0..=usize::from(u16::MAX)).collect();
    let mut comparisons = 0;
    for part in lengths.chunks(MOST_SLOTS) {
        let slots = part.iter();
        let slots = slots.map(|&length| slot_telling(length, &sheet, &mut random));
        let mut queue = slots.collect::<Vec<_>>().concat();
        queue.push(END_KIND);
        let says: Vec<_> = part.iter().map(|&n| says_of_beginning(n)).collect();
        comparisons += QUEUE.assert_prints(&queue, &whole(&says));
    }
    report("each length", comparisons);
}

#[test]
fn the_longest_sheet_without_a_name() {
    let mut sheet = vec![0x01];
    sheet.extend([0x05, 0, 0].repeat(254));
    let mut queue = slots(&[sheet], &mut Random::seeded(51));
    queue.push(END_KIND);
    let comparisons = QUEUE.assert_prints(&queue, &whole(&["met 1"]));
    report("the longest sheet without a name", comparisons);
}

#[test]
fn few_slots() {
    let none = "sheets 0 met 0 unmet 0 refused 0 survivors 0\n";
    let mut comparisons = QUEUE.assert_prints(&[END_KIND], none);
    comparisons += QUEUE.assert_prints(&[], "refused 15\n");
    let mut queue = slots(&[worked::from_hex(worked::S1)], &mut Random::seeded(52));
    comparisons += QUEUE.assert_prints(&queue, "0 met 16\nrefused 15\n");
    queue.push(END_KIND);
    let one = "0 met 16\nsheets 1 met 1 unmet 0 refused 0 survivors 16\n";
    comparisons += QUEUE.assert_prints(&queue, one);
    report("few slots", comparisons);
}

/// As many slots as there may be, each with as many survivors as there may be:
/// the largest totals.
#[test]
fn the_largest_totals() {
    let nine_names = [0x03, 8];
    let mut queue = slots(&[nine_names; MOST_SLOTS], &mut Random::seeded(53));
    queue.push(END_KIND);
    let totals = "sheets 4096 met 4096 unmet 0 refused 0 survivors 1073741824\n";
    let lines = slot_lines(&["met 262144"; MOST_SLOTS]);
    let comparisons = QUEUE.assert_prints(&queue, &(lines + totals));
    report("the largest totals", comparisons);
}

#[test]
fn after_the_most_slots() {
    let mut random = Random::seeded(54);
    let sheet = worked::from_hex(worked::S1);
    let queue = slots(&vec![&sheet; MOST_SLOTS], &mut random);
    let lines = slot_lines(&["met 16"; MOST_SLOTS]);
    let totals = "sheets 4096 met 4096 unmet 0 refused 0 survivors 65536\n";
    let last = slots(&[&sheet], &mut random);
    let ends = [
        (vec![END_KIND], totals),
        (vec![], "refused 15\n"),
        (vec![0], "refused 15\n"),
        (vec![SLOT_KIND], "refused 15\n"),
        (last.clone(), "refused 15\n"),
        ([last, vec![END_KIND]].concat(), "refused 15\n"),
    ];
    let mut comparisons = 0;
    for (end, line) in ends {
        let queue = [&queue[..], &end].concat();
        comparisons += QUEUE.assert_prints(&queue, &(lines.clone() + line));
    }
    report("after 4,096 slots", comparisons);
}

/// A sheet without axioms, of so many names and roles.
fn names_and_roles(names: u8, roles: u8) -> Vec<u8> {
    let mut sheet = Vec::new();
    if names > 0 {
        sheet.extend([0x03, names - 1]);
    }
    if roles > 0 {
        sheet.extend([0x10, roles - 1]);
    }
    sheet
}

/// What is said of it: every domino survives.
fn says_of_size(size: u8) -> String {
    match size {
        0..=9 => format!("met {}", 1_u64 << (2 * size)),
        10..=12 => "refused 10".into(),
        _ => "refused 9".into(),
    }
}

#[test]
fn each_number_of_names_and_roles() {
    let sizes = (0..=12).flat_map(|names| (0..=4).map(move |roles| (names, roles)));
    let sizes: Vec<(u8, u8)> = sizes.collect();
    let sheets = sizes.iter();
    let sheets: Vec<_> = sheets.map(|&(n, r)| names_and_roles(n, r)).collect();
    let mut queue = slots(&sheets, &mut Random::seeded(55));
    queue.push(END_KIND);
    let says: Vec<_> = sizes.iter().map(|(n, r)| says_of_size(n + r)).collect();
    let comparisons = QUEUE.assert_prints(&queue, &whole(&says));
    report("each number of names and roles", comparisons);
}
