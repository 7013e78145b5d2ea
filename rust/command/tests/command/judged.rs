//! `judge` on many made-up sheets in one run, against the reference.

use crate::folder::Folder;
use crate::run::run;
use crate::sheets::file;
use crate::words::count;
use comparison::program::assert_same;
use comparison::queues::any_sheet;
use comparison::random::Random;
use comparison::suites::{report, times};
use comparison::{few_axioms, worked};
use reference::domino::Shape;
use reference::Judgement;

/// What the reference says of a sheet, with as many words as it takes.
fn judged(sheet: &[u8]) -> Result<Judgement, reference::Refusal> {
    let counts = reference::read(sheet)?;
    let shape = Shape {
        parts: counts.marks() as usize,
        roles: counts.links as usize,
    };
    reference::judge(sheet, &mut vec![0; shape.words()])
}

/// What is counted over several sheets.
#[derive(Default)]
struct Totals {
    met: u64,
    unmet: u64,
    refused: u64,
    survivors: u64,
}

impl Totals {
    /// The line of a sheet.
    fn line(&mut self, name: &str, sheet: &[u8]) -> String {
        match judged(sheet) {
            Ok(judgement) => {
                let counter = if judgement.met {
                    &mut self.met
                } else {
                    &mut self.unmet
                };
                *counter += 1;
                self.survivors += judgement.survivors;
                let verdict = if judgement.met { "can" } else { "cannot" };
                let opening = count(judgement.opening, "pairing");
                let survivors = judgement.survivors;
                format!("{name}: {verdict} be met, {survivors} of {opening} left\n")
            }
            Err(reference::Refusal { number, place }) => {
                self.refused += 1;
                let explained = lodhrussi::judge(sheet, &mut []).expect_err("a refusal");
                assert_eq!((explained.number, explained.place), (number, place));
                let sentence = explained.explain(sheet);
                // too many parts are the fault of no byte
                let told = match number {
                    9 => "refused 9".into(),
                    _ => format!("refused {number} at byte {place}"),
                };
                format!("{name}: {told}: {sentence}\n")
            }
        }
    }

    /// The last line.
    fn last(&self) -> String {
        let Totals {
            met,
            unmet,
            refused,
            ..
        } = self;
        let sheets = count(met + unmet + refused, "sheet");
        let survivors = count(self.survivors, "survivor");
        format!(
            "{sheets}: {met} can be met, {unmet} cannot be met, {refused} refused; {survivors}\n"
        )
    }

    fn status(&self) -> i32 {
        match self {
            Totals { refused: 1.., .. } => 2,
            Totals { unmet: 1.., .. } => 1,
            _ => 0,
        }
    }
}

/// Asserts what is printed of some sheets in one run; answers how many lines.
#[track_caller]
fn compare(sheets: &[Vec<u8>], options: &[&str], random: &mut Random) -> (u64, Totals) {
    let folder = Folder::new();
    let mut arguments: Vec<String> = ["judge"]
        .iter()
        .chain(options)
        .map(ToString::to_string)
        .collect();
    let mut totals = Totals::default();
    let mut expected = String::new();
    for (number, sheet) in sheets.iter().enumerate() {
        let name = format!("s{number}");
        folder.write(&name, file(sheet, random));
        expected += &totals.line(&name, sheet);
        arguments.push(name);
    }
    expected += &totals.last();
    let ran = run(&folder, &arguments);
    let lines = assert_same(&ran.out, &expected);
    ran.is(totals.status(), &expected, "");
    (lines, totals)
}

#[test]
fn made_up_sheets() {
    let mut random = Random::seeded(70);
    let fits = |sheet: &Vec<u8>| {
        !reference::read(sheet).is_ok_and(|counts| counts.marks() + counts.links > 7)
    };
    let mut lines = 0;
    for options in [
        &[][..],
        &["--jobs", "1"],
        &["--jobs", "2"],
        &["--jobs", "8"],
    ] {
        let sheets = (0..times(1_000)).map(|_| any_sheet(&mut random));
        let sheets: Vec<_> = sheets.filter(fits).collect();
        let (compared, totals) = compare(&sheets, options, &mut random);
        lines += compared;
        assert!(totals.met >= 200 && totals.unmet >= 200 && totals.refused >= 100);
    }
    report("judge, made-up sheets", &lines);
    assert!(lines >= 3_000);
}

/// Parts and roles of 8 to 12, which the programs refuse from 10 on.
#[test]
fn large_sheets() {
    let mut random = Random::seeded(71);
    let sizes = [8, 8, 8, 9, 9, 9, 10, 10, 10, 11, 11, 12];
    let mut sheets: Vec<_> = sizes
        .map(|size| few_axioms::sheet(size, &mut random))
        .to_vec();
    sheets.push(worked::from_hex(worked::TWELVE));
    let (lines, totals) = compare(&sheets, &["--jobs", "2"], &mut random);
    assert_eq!((lines, totals.refused), (14, 0));
}

#[test]
fn the_worked_sheets() {
    let mut random = Random::seeded(72);
    let sheets: Vec<_> = worked::all().collect();
    let (lines, totals) = compare(&sheets, &[], &mut random);
    assert_eq!(lines, sheets.len() as u64 + 1);
    assert_eq!((totals.met, totals.unmet, totals.refused), (10, 4, 12));
}
