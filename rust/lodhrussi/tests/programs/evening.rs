//! The evening program: sheets of document 01, sheets that repeat a claim,
//! inputs of many lengths, and an input that fails.

use comparison::program::{assert_same, Program};
use comparison::running::Running;
use comparison::suites;
use comparison::worked::{from_hex, JUDGED, N8, N8_MET, S1, S5, S6};
use std::fs::File;
use std::time::Duration;

const EVENING: Program = Program("evening");

const INPUT_FAILED: &str = "evening: standard input cannot be read\n";

const S2: &str = JUDGED[2].0;

const OF_EMPTY: &str =
    "traits 0 fresh 0 some 0 only 0 links 0\nopening 1 survivors 1\ncan be met\n";
const OF_S1: &str = "traits 1 fresh 0 some 1 only 0 links 1\nopening 32 survivors 16\ncan be met\n";
const OF_S2: &str =
    "traits 1 fresh 0 some 1 only 0 links 1\nopening 16 survivors 0\ncannot be met\n";
const OF_S5: &str = "traits 1 fresh 0 some 0 only 1 links 1\nopening 48 survivors 16\ncan be met\n";
const OF_S6: &str =
    "traits 1 fresh 1 some 1 only 0 links 1\nopening 144 survivors 85\ncan be met\n";
const OF_N8_MET: &str =
    "traits 0 fresh 0 some 1 only 1 links 2\nopening 32 survivors 4\ncan be met\n";
const OF_N8: &str =
    "traits 0 fresh 0 some 1 only 1 links 2\nopening 16 survivors 0\ncannot be met\n";

/// What is printed where a 256th record begins after [`longest`].
const TOO_LONG: &str = "refused 3 at 763\n";

/// Everything, then 254 conjunctions of it with itself: as many records as there
/// may be.
fn longest() -> Vec<u8> {
    [vec![0x01], [0x05, 0, 0].repeat(254)].concat()
}

/// It, then so many records more.
fn longer(more: usize) -> Vec<u8> {
    [longest(), vec![0x01; more]].concat()
}

/// S1 whose claim is made by so many rules, each with its own records.
fn repeated(rules: u8) -> Vec<u8> {
    let claims = (0..rules).flat_map(|i| [0x07, 1, 2, 0x20, 0, 3 + 2 * i]);
    from_hex(S1)[..5].iter().copied().chain(claims).collect()
}

/// Asserts what is printed for each input; prints how many lines were compared.
#[track_caller]
fn assert_all(what: &str, rows: &[(Vec<u8>, &str)]) {
    let rows = rows.iter();
    let comparisons: u64 = rows
        .map(|(input, expected)| EVENING.assert_prints(input, expected))
        .sum();
    report(what, comparisons);
}

fn report(what: &str, comparisons: u64) {
    let name = format!("evening, {what}");
    suites::report(&name, &format!("{comparisons} comparisons"));
}

#[test]
fn the_worked_sheets() {
    let rows = [
        (from_hex(S1), OF_S1),
        (from_hex(S2), OF_S2),
        (from_hex(S5), OF_S5),
        (from_hex(S6), OF_S6),
        (from_hex("03 00 04 00 05 01 01"), "refused 7 at 6\n"),
        (vec![], OF_EMPTY),
    ];
    assert_all("worked sheets", &rows);
}

#[test]
fn sheets_with_role_inclusions() {
    let rows = [
        (from_hex(N8_MET), OF_N8_MET),
        (from_hex(N8), OF_N8),
        (from_hex("10 00 21 00 00 12 01"), "refused 17 at 6\n"),
        (from_hex("10 00 12 00 21 01 00"), "refused 8 at 4\n"),
        (from_hex("10 00 01 21 01 00"), "refused 16 at 4\n"),
        (from_hex("10 00 21 00"), "refused 2 at 2\n"),
    ];
    assert_all("role inclusions", &rows);
}

/// A fault of a reference is placed at its byte, other faults of a record where
/// it starts.
#[test]
fn faults_of_references() {
    let rows = [
        (from_hex("04 00"), "refused 5 at 1\n"),
        (from_hex("10 00 07 00 00"), "refused 6 at 4\n"),
        (from_hex("01 10 00 07 00 01"), "refused 16 at 4\n"),
        (from_hex("01 20 00 00 04 01"), "refused 17 at 5\n"),
        (from_hex("01 20 00 00 10 00 07 02 01"), "refused 17 at 8\n"),
        (from_hex("10 00 12 00 01 07 01 02"), "refused 8 at 5\n"),
    ];
    assert_all("faults of references", &rows);
}

/// Each of six names is some role 0 with filler name 0: six occurrences of one
/// claim, so seven parts.
#[test]
fn sheets_that_repeat_a_claim() {
    let six_names = from_hex(
        "03 00 10 00 03 01 03 02 03 03 03 04 03 05 \
         07 01 00 20 00 07 07 01 00 20 02 09 07 01 00 20 03 0B \
         07 01 00 20 04 0D 07 01 00 20 05 0F 07 01 00 20 06 11",
    );
    let of_six = "traits 6 fresh 0 some 1 only 0 links 1\n\
                  opening 33152 survivors 16772\ncan be met\n";
    let rows = [(repeated(60), OF_S1), (six_names, of_six)];
    assert_all("sheets that repeat a claim", &rows);
}

#[test]
fn long_inputs() {
    let rows = [
        (longest(), OF_EMPTY),
        (longer(3), TOO_LONG),
        (longer(4), TOO_LONG),
        (longer(1_000), TOO_LONG),
        (vec![0x01; 766], "refused 3 at 255\n"),
    ];
    assert_all("long inputs", &rows);
}

#[test]
fn chunks() {
    let rows = [
        (from_hex(S1), 1, OF_S1),
        (from_hex(S2), 2, OF_S2),
        (longest(), 100, OF_EMPTY),
        (longer(37), 200, TOO_LONG),
    ];
    let mut comparisons = 0;
    for (input, size, expected) in rows {
        let printed = EVENING.printed_for_chunks(input.chunks(size), Duration::from_millis(2));
        comparisons += assert_same(&printed, expected);
    }
    report("in chunks", comparisons);
}

#[test]
fn numbers_of_names_and_roles() {
    let of_nine = "traits 9 fresh 0 some 0 only 0 links 0\n\
                   opening 262144 survivors 262144\ncan be met\n";
    let rows = [
        (vec![0x03, 8], of_nine),
        (vec![0x03, 9], "refused 10 at 0\n"),
        (vec![0x03, 11], "refused 10 at 0\n"),
        (vec![0x03, 11, 0x10, 0], "refused 9 at 0\n"),
    ];
    assert_all("numbers of names and roles", &rows);
}

#[test]
fn a_folder_cannot_be_read() {
    let folder = File::open(env!("CARGO_TARGET_TMPDIR")).expect("a folder");
    let running = Running::start(EVENING.command().stdin(folder));
    assert_eq!(running.end(), INPUT_FAILED);
}

#[test]
fn a_closed_input_cannot_be_read() {
    let running = Running::start(&mut EVENING.after("exec <&-;"));
    assert_eq!(running.end(), INPUT_FAILED);
}

#[test]
fn an_input_that_fails_later() {
    let sheet = from_hex(S1);
    for end in 0..=sheet.len() {
        let complaint = Running::input_failing_after(&sheet[..end], &[], EVENING);
        assert_eq!(complaint, INPUT_FAILED, "after {end} bytes");
    }
}
