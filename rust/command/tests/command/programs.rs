//! `judge --lines` against the evening program and the queue program.

use crate::folder::Folder;
use crate::run::{run, run_on};
use crate::sheets::file;
use comparison::program::Program;
use comparison::queues::{any_sheet, large_sheet, slot_telling, Tally, END_KIND, LONGEST};
use comparison::random::Random;
use comparison::suites::{report, times};
use comparison::{claims, damage, made_up, worked};

const EVENING: Program = Program("evening");
const QUEUE: Program = Program("queue");

/// The most slots of a queue.
const MOST: usize = 4_096;

/// The exit status for what the evening program prints.
fn status_of_one(printed: &str) -> i32 {
    match printed {
        refused if refused.starts_with("refused ") => 2,
        unmet if unmet.ends_with("\ncannot be met\n") => 1,
        _ => 0,
    }
}

/// The exit status for what the queue program prints.
fn status_of_several(printed: &str) -> i32 {
    let mut tally = Tally::default();
    tally.count(printed);
    match (tally.refused.iter().sum(), tally.unmet) {
        (0_u64, 0_u64) => 0,
        (0, _) => 1,
        _ => 2,
    }
}

/// The queue of some sheets. Of an overlong one a slot has the beginning.
fn queue_of(sheets: &[Vec<u8>], random: &mut Random) -> Vec<u8> {
    let slots = sheets.iter().map(|sheet| {
        let length = sheet.len().min(LONGEST + 1);
        slot_telling(length, sheet, random)
    });
    let mut queue = slots.collect::<Vec<_>>().concat();
    queue.push(END_KIND);
    queue
}

/// Asserts that the command prints of one sheet, in a file and on standard
/// input, what the evening program prints; answers how many lines these are.
#[track_caller]
fn compare_one(folder: &Folder, sheet: &[u8], random: &mut Random) -> usize {
    let printed = EVENING.printed(sheet);
    let status = status_of_one(&printed);
    let bytes = file(sheet, random);
    folder.write("sheet", &bytes);
    run(folder, &["judge", "--lines", "sheet"]).is(status, &printed, "");
    run_on(folder, &["judge", "--lines", "-"], &bytes).is(status, &printed, "");
    2 * printed.lines().count()
}

/// Asserts that the command prints of several sheets what the queue program
/// prints, by as many threads as are asked for.
#[track_caller]
fn compare_several(sheets: &[Vec<u8>], jobs: &str, tally: &mut Tally, random: &mut Random) {
    assert!(sheets.len() > 1);
    let folder = Folder::new();
    let mut arguments = ["judge", "--lines", "--jobs", jobs]
        .map(String::from)
        .to_vec();
    for (number, sheet) in sheets.iter().enumerate() {
        let name = format!("s{number}");
        folder.write(&name, file(sheet, random));
        arguments.push(name);
    }
    let printed = QUEUE.printed(&queue_of(sheets, random));
    run(&folder, &arguments).is(status_of_several(&printed), &printed, "");
    tally.count(&printed);
    tally.comparisons += printed.lines().count() as u64;
}

#[test]
fn the_worked_sheets_one_by_one() {
    let mut random = Random::seeded(60);
    let folder = Folder::new();
    let mut comparisons = 0;
    for sheet in worked::all() {
        for end in 0..=sheet.len() {
            comparisons += compare_one(&folder, &sheet[..end], &mut random);
        }
    }
    report("evening, worked sheets", &comparisons);
    assert!(comparisons >= 500);
}

#[test]
fn made_up_sheets_one_by_one() {
    let mut random = Random::seeded(61);
    let folder = Folder::new();
    let mut comparisons = 0;
    for turn in 0..times(600) {
        let sheet = match turn % 8 {
            0..=5 => any_sheet(&mut random),
            6 => large_sheet(&mut random),
            _ => damage::noise(&mut random),
        };
        comparisons += compare_one(&folder, &sheet, &mut random);
    }
    report("evening, made-up sheets", &comparisons);
    assert!(comparisons >= 2_000);
}

#[test]
fn made_up_queues() {
    let mut random = Random::seeded(62);
    let mut tally = Tally::default();
    for turn in 0..times(120) {
        let size = 2 + random.below(if turn % 12 == 0 { 1_000 } else { 60 });
        let sheets: Vec<_> = (0..size).map(|_| any_sheet(&mut random)).collect();
        let jobs = random.pick(&["1", "2", "8"]);
        compare_several(&sheets, jobs, &mut tally, &mut random);
    }
    report("queues of made-up sheets", &tally);
    assert!(tally.comparisons >= 7_000 && tally.queues >= 120);
    for number in (1..=10).chain([14, 16, 17]) {
        assert!(tally.refused[number] >= 10, "refusal {number} is rare");
    }
}

#[test]
fn queues_of_large_sheets() {
    let mut random = Random::seeded(63);
    let mut tally = Tally::default();
    let sheets: Vec<_> = (0..200).map(|_| large_sheet(&mut random)).collect();
    compare_several(&sheets, "2", &mut tally, &mut random);
    assert_eq!(tally.comparisons, 201);
}

#[test]
fn queues_of_sheets_that_repeat_claims() {
    let mut random = Random::seeded(64);
    let mut tally = Tally::default();
    let listed = claims::judged().into_iter().map(|row| row.sheet);
    let made_up = (0..200).map(|_| made_up::repeating_sheet(&mut random).bytes);
    let sheets: Vec<_> = listed.chain(made_up.collect::<Vec<_>>()).collect();
    compare_several(&sheets, "2", &mut tally, &mut random);
    assert!(tally.comparisons > 200);
}

/// As many sheets as a queue may have, and more.
#[test]
fn the_most_sheets() {
    let mut random = Random::seeded(65);
    let mut tally = Tally::default();
    let small = [vec![], vec![0x03, 0], vec![0x01, 0x02, 0x20, 0, 1]];
    for size in [MOST - 1, MOST, MOST + 1, MOST + 2] {
        let sheets: Vec<_> = (0..size).map(|n| small[n % 3].clone()).collect();
        compare_several(&sheets, "2", &mut tally, &mut random);
    }
    assert_eq!(tally.refused[15], 2);
    assert_eq!(tally.comparisons, 4 * (MOST as u64 + 1) - 1);
}

/// A name, then as many conjunctions as there may be, then more records: around
/// what a slot may have.
#[test]
fn the_longest_sheets() {
    let mut random = Random::seeded(66);
    let longest = [&[0x03, 0][..], &[0x05, 0, 0].repeat(254)].concat();
    assert_eq!(longest.len() + 1, LONGEST);
    let longer = |more: usize| [&longest[..], &vec![0x01; more]].concat();
    let sheets: Vec<_> = [0, 1, 2, 3, 1_000, 100_000].map(longer).to_vec();
    let folder = Folder::new();
    for sheet in &sheets {
        compare_one(&folder, sheet, &mut random);
    }
    let mut tally = Tally::default();
    compare_several(&sheets, "1", &mut tally, &mut random);
    assert_eq!((tally.met, tally.refused[3], tally.refused[14]), (1, 1, 4));
}

/// A file that cannot be read: nothing is answered at all.
#[test]
fn a_missing_file() {
    let folder = Folder::with(&[("s1.hex", worked::S1)]);
    let missing = "lodhrussi: there is no file none.hex\n";
    run(&folder, &["judge", "--lines", "none.hex"]).is(3, "", missing);
    let among = ["judge", "--lines", "s1.hex", "none.hex", "s1.hex"];
    run(&folder, &among).is(3, "", missing);
}
