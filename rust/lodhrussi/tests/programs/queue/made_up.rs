//! Queues of made-up sheets, against the reference and the product's judge.

use super::lines::whole;
use super::QUEUE;
use comparison::program::assert_same;
use comparison::queues::{
    any_sheet, large_sheet, slots, Tally, END_KIND, LONGEST, SLOT, SLOT_KIND,
};
use comparison::random::Random;
use comparison::suites::{report, times};
use comparison::worked;
use std::time::Duration;

/// What judging a sheet alone says, with 4,096 words of any contents.
fn says_alone(sheet: &[u8], random: &mut Random) -> String {
    if sheet.len() > LONGEST {
        return "refused 14".into();
    }
    let mut set: Vec<u64> = (0..4_096).map(|_| random.word()).collect();
    match lodhrussi::judge(sheet, &mut set) {
        Ok(judgement) if judgement.met => format!("met {}", judgement.survivors),
        Ok(judgement) => format!("unmet {}", judgement.survivors),
        Err(refusal) => format!("refused {}", refusal.number),
    }
}

/// What follows the slots: mostly an end with any bytes after it, else nothing,
/// any kind, or a cut slot.
fn any_end(random: &mut Random) -> Vec<u8> {
    let some = random.below(SLOT);
    let mut end = random.bytes(some);
    match random.below(8) {
        0 => end.clear(),
        1 => {}
        2 => end.insert(0, SLOT_KIND),
        _ => end.insert(0, END_KIND),
    }
    end
}

/// Compares the program with the reference to the byte, and each slot's line
/// with judging its sheet alone. Answers what slots say.
fn compare(sheets: &[Vec<u8>], tally: &mut Tally, random: &mut Random) -> Vec<String> {
    let queue = [slots(sheets, random), any_end(random)].concat();
    let chunk = 1 + random.below(5_000);
    let printed = QUEUE.printed_for_chunks(queue.chunks(chunk), Duration::ZERO);
    tally.comparisons += assert_same(&printed, &reference::queue::printed(&queue));
    tally.count(&printed);
    let lines = printed.lines().take(sheets.len()).enumerate();
    let says: Vec<_> = lines.map(|(number, line)| said(number, line)).collect();
    assert_eq!(says.len(), sheets.len());
    for (says, sheet) in says.iter().zip(sheets) {
        assert_eq!(says, &says_alone(sheet, random), "sheet {sheet:02X?}");
        tally.comparisons += 1;
    }
    says
}

/// A slot's line without its number.
fn said(number: usize, line: &str) -> String {
    let says = line.strip_prefix(&format!("{number} "));
    says.unwrap_or_else(|| panic!("line {number} is {line}"))
        .into()
}

/// The same sheets in any order, each with the answer that it had.
fn compare_in_any_order(
    sheets: &[Vec<u8>],
    says: &[String],
    tally: &mut Tally,
    random: &mut Random,
) {
    let mut order: Vec<usize> = (0..sheets.len()).collect();
    random.shuffle(&mut order);
    let moved: Vec<_> = order.iter().map(|&from| &sheets[from]).collect();
    let says: Vec<_> = order.iter().map(|&from| &says[from]).collect();
    let printed = QUEUE.printed(&[slots(&moved, random), vec![END_KIND]].concat());
    tally.comparisons += assert_same(&printed, &whole(&says));
    tally.count(&printed);
}

#[test]
fn made_up_sheets() {
    let mut random = Random::seeded(60);
    let mut tally = Tally::default();
    for _ in 0..times(60) {
        let slots = 100 + random.below(600);
        let sheets: Vec<_> = (0..slots).map(|_| any_sheet(&mut random)).collect();
        let says = compare(&sheets, &mut tally, &mut random);
        compare_in_any_order(&sheets, &says, &mut tally, &mut random);
    }
    report("queues of made-up sheets", &tally);
    assert!(4 * tally.met >= tally.slots() && 6 * tally.unmet >= tally.slots());
    for number in (1..=10).chain([14, 16, 17]) {
        assert!(tally.refused[number] >= 100, "refusal {number} is rare");
    }
}

/// By turns a sheet that takes many words, one that sets all of them, one that
/// takes a single word, and any.
fn large_or_small(turn: usize, random: &mut Random) -> Vec<u8> {
    match turn % 4 {
        0 => large_sheet(random),
        1 => vec![0x03, 8],
        2 => worked::from_hex(random.pick(&worked::JUDGED).0),
        _ => any_sheet(random),
    }
}

#[test]
fn large_and_small_sheets_by_turns() {
    let mut random = Random::seeded(61);
    let mut tally = Tally::default();
    for _ in 0..times(16) {
        let sheets: Vec<_> = (0..100)
            .map(|turn| large_or_small(turn, &mut random))
            .collect();
        let says = compare(&sheets, &mut tally, &mut random);
        for _ in 0..4 {
            compare_in_any_order(&sheets, &says, &mut tally, &mut random);
        }
    }
    report("queues of large and small sheets", &tally);
}
