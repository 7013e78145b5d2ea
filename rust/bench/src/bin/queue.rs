//! Times the queue program on full queues: against the sum of judging the same
//! sheets by the product and by the plain engine in one process, and against an
//! evening program for each sheet.

use bench::families::Family;
use bench::plain;
use bench::timing::medians;
use comparison::queues::{slots, END_KIND};
use comparison::random::Random;
use std::fs::{self, File};
use std::hint::black_box;
use std::io::Write;
use std::ops::RangeInclusive;
use std::path::{Path, PathBuf};
use std::process::{Command, Stdio};
use std::{env, process};

const SLOTS: usize = 4_096;
const WORDS: usize = 4_096;
const BATCHES: usize = 7;

/// Sheets that get a process each; the time is scaled to all.
const SAMPLE: usize = 512;

fn main() {
    println!(
        "| {SLOTS} sheets with c + L of | met | unmet | queue, ms | a slot, µs | product, ms \
         | plain, ms | a process each, ms | queue / product | processes / queue |"
    );
    println!("|---|---|---|---|---|---|---|---|---|---|");
    for sizes in [3..=6, 3..=9, 9..=9] {
        measure(sizes);
    }
}

/// Sheets of all families, of such sizes, in a fixed order without a pattern.
fn sheets(sizes: RangeInclusive<u8>) -> Vec<Vec<u8>> {
    let mut all = Vec::new();
    for family in Family::ALL {
        for roles in [1, 2, 4] {
            for size in sizes.clone().filter(|&size| size > roles) {
                let sheet = family.sheet(size - roles, roles);
                all.push(sheet.bytes().to_vec());
            }
        }
    }
    let mut sheets: Vec<_> = all.iter().cycle().take(SLOTS).cloned().collect();
    Random::seeded(80).shuffle(&mut sheets);
    sheets
}

fn measure(sizes: RangeInclusive<u8>) {
    let sheets = sheets(sizes.clone());
    let queue = Queue::of(&sheets);
    let printed = queue.run();
    assert_eq!(printed, by_product(&sheets).printed());
    assert_eq!(printed, by_plain(&sheets).printed());
    let counts = by_product(&sheets);

    let mut by_queue = || {
        black_box(queue.run());
    };
    let mut product = || {
        black_box(by_product(black_box(&sheets)));
    };
    let mut plain = || {
        black_box(by_plain(black_box(&sheets)));
    };
    let mut processes = || by_processes(&sheets[..SAMPLE]);
    let runs: [&mut dyn FnMut(); 4] = [&mut by_queue, &mut product, &mut plain, &mut processes];
    let [by_queue, product, plain, processes] = medians(BATCHES, 1, runs);
    let processes = processes * (SLOTS / SAMPLE) as f64;
    println!(
        "| {} | {} | {} | {:.1} | {:.1} | {:.1} | {:.1} | {:.0} | {:.2} | {:.1} |",
        name(&sizes),
        counts.met,
        SLOTS - counts.met,
        by_queue / 1e6,
        by_queue / 1e3 / SLOTS as f64,
        product / 1e6,
        plain / 1e6,
        processes / 1e6,
        by_queue / product,
        processes / by_queue
    );
}

fn name(sizes: &RangeInclusive<u8>) -> String {
    if sizes.start() == sizes.end() {
        return sizes.end().to_string();
    }
    format!("{} to {}", sizes.start(), sizes.end())
}

/// What judging the sheets of a queue says.
#[derive(Default)]
struct Judged {
    /// The survivors of each sheet.
    survivors: Vec<u64>,
    met: usize,
}

impl Judged {
    fn add(&mut self, survivors: u64, met: bool) {
        self.survivors.push(survivors);
        self.met += usize::from(met);
    }

    /// What the queue program prints.
    fn printed(&self) -> String {
        let mut printed = String::new();
        for (number, &survivors) in self.survivors.iter().enumerate() {
            let answer = if survivors > 0 { "met" } else { "unmet" };
            printed += &format!("{number} {answer} {survivors}\n");
        }
        let sheets = self.survivors.len();
        let (met, unmet) = (self.met, sheets - self.met);
        let survivors: u64 = self.survivors.iter().sum();
        printed
            + &format!("sheets {sheets} met {met} unmet {unmet} refused 0 survivors {survivors}\n")
    }
}

/// Judges all sheets with the same words, by what answers the survivors of one
/// and whether it is met.
fn judged(sheets: &[Vec<u8>], judge: impl Fn(&[u8], &mut [u64]) -> (u64, bool)) -> Judged {
    let mut set = vec![0; WORDS];
    let mut judged = Judged::default();
    for sheet in sheets {
        let (survivors, met) = judge(sheet, &mut set);
        judged.add(survivors, met);
    }
    judged
}

fn by_product(sheets: &[Vec<u8>]) -> Judged {
    judged(sheets, |sheet, set| {
        let judgement = lodhrussi::judge(sheet, set).expect("the product judges the sheet");
        (judgement.survivors, judgement.met)
    })
}

fn by_plain(sheets: &[Vec<u8>]) -> Judged {
    judged(sheets, |sheet, set| {
        let judgement = plain::judge(sheet, set).expect("the plain engine judges the sheet");
        (judgement.survivors, judgement.met)
    })
}

/// Runs an evening program for each sheet.
fn by_processes(sheets: &[Vec<u8>]) {
    let program = program("evening");
    for sheet in sheets {
        let mut command = Command::new(&program);
        command.stdin(Stdio::piped()).stdout(Stdio::piped());
        let mut child = command.spawn().expect("the evening program starts");
        let mut stdin = child.stdin.take().expect("a piped input");
        stdin.write_all(sheet).expect("the sheet is taken");
        drop(stdin);
        let output = child.wait_with_output().expect("the program's output");
        assert!(output.stdout.ends_with(b"be met\n"));
    }
}

/// A program that the proofs' build made.
fn program(name: &str) -> PathBuf {
    let root = Path::new(env!("CARGO_MANIFEST_DIR")).join("../..");
    let path = root.join("crates").join(name).join("out").join(name);
    assert!(
        path.is_file(),
        "{} is missing: run `rt run` in crates/{name}",
        path.display()
    );
    path
}

/// A queue in a file, which goes when this is dropped.
struct Queue {
    file: PathBuf,
}

impl Queue {
    fn of(sheets: &[Vec<u8>]) -> Self {
        let mut queue = slots(sheets, &mut Random::seeded(81));
        queue.push(END_KIND);
        let file = env::temp_dir().join(format!("lodhrussi-queue-{}", process::id()));
        fs::write(&file, queue).expect("the queue is written");
        Queue { file }
    }

    /// What the program prints.
    fn run(&self) -> String {
        let input = File::open(&self.file).expect("the queue is there");
        let output = Command::new(program("queue")).stdin(input).output();
        let output = output.expect("the queue program runs");
        String::from_utf8(output.stdout).expect("lines of text")
    }
}

impl Drop for Queue {
    fn drop(&mut self) {
        let _ = fs::remove_file(&self.file);
    }
}
