//! Lines come as slots do, no more is read than decides, and a failing input or
//! output is told.

use super::QUEUE;
use comparison::program::{assert_same, text};
use comparison::queues::{slot, slots, END_KIND, SLOT, SLOT_KIND};
use comparison::random::Random;
use comparison::running::Running;
use comparison::worked;
use std::fs::{self, File};
use std::io::{Seek, Write};
use std::path::Path;
use std::thread;
use std::time::Duration;

const INPUT_FAILED: &str = "queue: standard input cannot be read\n";
const OUTPUT_FAILED: &str = "queue: standard output cannot be written\n";

fn s1_slot() -> Vec<u8> {
    slot(&worked::from_hex(worked::S1), &mut Random::seeded(70))
}

#[test]
fn lines_come_before_the_next_slot() {
    let mut running = Running::start(&mut QUEUE.command());
    let mut input = running.input();
    for number in 0..50 {
        input.write_all(&s1_slot()).expect("a slot is taken");
        assert_eq!(running.line(), format!("{number} met 16"));
    }
    input.write_all(&[END_KIND]).expect("the end is taken");
    let totals = "sheets 50 met 50 unmet 0 refused 0 survivors 800";
    assert_eq!(running.line(), totals);
    assert_eq!(running.end(), "");
}

#[test]
fn an_unknown_kind_ends_an_open_queue() {
    for slots in 0..2 {
        let mut running = Running::start(&mut QUEUE.command());
        let mut input = running.input();
        for number in 0..slots {
            input.write_all(&s1_slot()).expect("a slot is taken");
            assert_eq!(running.line(), format!("{number} met 16"));
        }
        input.write_all(&[0x32]).expect("a kind is taken");
        assert_eq!(running.line(), "refused 15");
        assert_eq!(running.end(), "");
    }
}

/// The kind alone of a 4,097th slot ends an open queue.
#[test]
fn the_kind_of_a_4097th_slot_ends_an_open_queue() {
    let mut running = Running::start(&mut QUEUE.command());
    let mut input = running.input();
    let slots = s1_slot().repeat(4_096);
    input.write_all(&slots).expect("the slots are taken");
    for number in 0..4_096 {
        assert_eq!(running.line(), format!("{number} met 16"));
    }
    input.write_all(&[SLOT_KIND]).expect("a kind is taken");
    assert_eq!(running.line(), "refused 15");
    assert_eq!(running.end(), "");
}

/// Runs the program on a file; answers what it prints and how many bytes it
/// reads.
fn printed_for_file(name: &str, queue: &[u8]) -> (String, u64) {
    let path = Path::new(env!("CARGO_TARGET_TMPDIR")).join(name);
    fs::write(&path, queue).expect("a file is written");
    let mut file = File::open(&path).expect("a file is opened");
    let same = file.try_clone().expect("a second handle");
    let output = QUEUE.command().stdin(same).output();
    let printed = text(output.expect("the program runs"));
    let read = file.stream_position().expect("a place in a file");
    fs::remove_file(&path).expect("a file is removed");
    (printed, read)
}

#[test]
fn no_more_is_read_than_decides() {
    let two = slots(&[[]; 2], &mut Random::seeded(71));
    let lines = "0 met 1\n1 met 1\n";
    let totals = "sheets 2 met 2 unmet 0 refused 0 survivors 2\n";
    for (kind, last) in [(END_KIND, totals), (0x32, "refused 15\n")] {
        let queue = [&two[..], &[kind], &two].concat();
        let (printed, read) = printed_for_file("decided", &queue);
        assert_same(&printed, &[lines, last].concat());
        assert_eq!(read, 2 * SLOT as u64 + 1);
    }
    let too_many = slots(&[[]; 4_098], &mut Random::seeded(72));
    let (printed, read) = printed_for_file("too many", &too_many);
    let lines: String = (0..4_096).map(|n| format!("{n} met 1\n")).collect();
    assert_same(&printed, &(lines + "refused 15\n"));
    assert_eq!(read, 4_096 * SLOT as u64 + 1);
}

#[test]
fn a_folder_cannot_be_read() {
    let folder = File::open(env!("CARGO_TARGET_TMPDIR")).expect("a folder");
    let running = Running::start(QUEUE.command().stdin(folder));
    assert_eq!(running.end(), INPUT_FAILED);
}

#[test]
fn a_closed_input_cannot_be_read() {
    let running = Running::start(&mut QUEUE.after("exec <&-;"));
    assert_eq!(running.end(), INPUT_FAILED);
}

fn fails_after(bytes: &[u8], lines: &[&str]) {
    let complaint = Running::input_failing_after(bytes, lines, QUEUE);
    assert_eq!(complaint, INPUT_FAILED, "after {} bytes", bytes.len());
}

#[test]
fn an_input_that_fails_later() {
    let slot = s1_slot();
    fails_after(&[], &[]);
    fails_after(&slot[..1], &[]);
    fails_after(&slot[..SLOT - 1], &[]);
    fails_after(&slot, &["0 met 16"]);
    let more = [&slot[..], &slot[..100]].concat();
    fails_after(&more, &["0 met 16"]);
}

/// Runs the program with an output that takes nothing; its input stays open.
fn fails_to_print(bytes: &[u8]) {
    let full = File::options().write(true).open("/dev/full");
    let mut running = Running::start(QUEUE.command().stdout(full.expect("a full device")));
    let mut input = running.input();
    input.write_all(bytes).expect("bytes are taken");
    assert_eq!(running.end(), OUTPUT_FAILED);
}

#[test]
fn an_output_that_fails() {
    fails_to_print(&s1_slot());
    fails_to_print(&[END_KIND]);
    fails_to_print(&[0x32]);
}

/// An output that is closed after a line, where writing to it is no signal.
#[test]
fn an_output_that_fails_later() {
    let mut running = Running::start_reading(1, &mut QUEUE.after("trap '' PIPE;"));
    let mut input = running.input();
    input.write_all(&s1_slot()).expect("a slot is taken");
    assert_eq!(running.line(), "0 met 16");
    running.no_line();
    // A process that is just being started may keep the output open a little
    // longer, so slots are sent until none is taken.
    for _ in 0..80 {
        if input.write_all(&s1_slot()).is_err() {
            break;
        }
        thread::sleep(Duration::from_millis(20));
    }
    assert_eq!(running.end(), OUTPUT_FAILED);
}
