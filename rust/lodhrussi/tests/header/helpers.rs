//! Constants, words needed and sentences, which say what the Rust crate says.

use super::{written_by, C, CPP};
use lodhrussi::{words_needed, Call, Condition, Counts, Refusal};
use std::fmt::Write;

const REFUSALS: &str = "\
LODHRUSSI_DONE 0
LODHRUSSI_UNKNOWN_KIND 1
LODHRUSSI_BODY_CUT_OFF 2
LODHRUSSI_TOO_MANY_RECORDS 3
LODHRUSSI_NUMBER_TOO_LARGE 4
LODHRUSSI_NOT_EARLIER 5
LODHRUSSI_LINK_FOR_CLASS 6
LODHRUSSI_NAMED_AGAIN 7
LODHRUSSI_LINK_ON_EMPTY 8
LODHRUSSI_TOO_MANY_MARKS 9
LODHRUSSI_SET_TOO_SHORT 10
LODHRUSSI_NO_SUCH_PAIRING 11
LODHRUSSI_LIST_TOO_SHORT 12
LODHRUSSI_SLOT_TOO_LONG 14
LODHRUSSI_QUEUE_BROKEN 15
LODHRUSSI_CLASS_FOR_LINK 16
LODHRUSSI_RULE_NAMED 17
LODHRUSSI_UNKNOWN_WORD 18
LODHRUSSI_CANNOT_STAND 19
LODHRUSSI_COMPOSED_LINK 20
LODHRUSSI_OUTPUT_TOO_SHORT 21
LODHRUSSI_PLANT_BROKEN 22
LODHRUSSI_TOO_MANY_ITEMS 23
LODHRUSSI_NOT_THERE 24
LODHRUSSI_NO_ITEMS 25
LODHRUSSI_NO_SURVIVORS 26
LODHRUSSI_TOO_MANY_SURVIVORS 27
LODHRUSSI_ABSENT 0
LODHRUSSI_STRUCK 1
LODHRUSSI_KEPT 2
LODHRUSSI_HOLDS 0
LODHRUSSI_ITEM 1
LODHRUSSI_PAIR 2
";

const NO_CALLS: &str = "No call refuses with this number.";

/// The conditions under the Rust crate's names and numbers.
fn conditions(text: &mut String) {
    for condition in Condition::ALL {
        let name = format!("{condition:?}").to_uppercase();
        writeln!(text, "LODHRUSSI_{name} {}", condition.number()).unwrap();
    }
}

fn words(text: &mut String) {
    let small = (0..=40).flat_map(|marks| (0..=4).map(move |links| (marks, links)));
    let most = u64::MAX;
    let large = [(0, 40), (most, 0), (0, most), (most, 1), (most, most)];
    for (marks, links) in small.chain(large) {
        let counts = Counts {
            traits: marks,
            links,
            ..Counts::default()
        };
        writeln!(text, "{marks} {links} {}", words_needed(counts)).unwrap();
    }
}

/// The sentence of the Rust crate, of a call that has this refusal.
fn sentence(number: u64, place: u64) -> String {
    let call = match number {
        0 => return "Nothing is refused.".into(),
        1..=9 | 16 | 17 => Call::Read,
        10 | 11 => Call::Strike,
        12 => Call::ListMarks,
        18 | 19 => Call::Import,
        20 | 21 => Call::Export,
        22..=25 => Call::CheckPlant,
        26 | 27 => Call::DrawPlant,
        _ => return NO_CALLS.into(),
    };
    of_call(call, number, place)
}

/// The sentence of the Rust crate.
fn of_call(call: Call, number: u64, place: u64) -> String {
    let refusal = Refusal {
        call,
        number,
        place,
    };
    refusal.to_string()
}

fn sentences(text: &mut String) {
    for number in 0..40 {
        writeln!(text, "{}", sentence(number, 5).replace(" at byte 5", "")).unwrap();
    }
    writeln!(text, "{NO_CALLS}").unwrap();
    for number in 0..40 {
        for place in [5, u64::MAX] {
            lengths(text, &sentence(number, place));
        }
    }
    // refused by import, 3 has place 0
    lengths(text, &of_call(Call::Import, 3, 0));
}

/// A sentence whole and cut, with what each way of writing it answers.
fn lengths(text: &mut String, whole: &str) {
    let (length, cut) = (whole.len(), &whole[..10]);
    writeln!(text, "{length} {length} {length} {whole}|{cut}|!").unwrap();
}

fn expected() -> String {
    let mut text = REFUSALS.to_string();
    conditions(&mut text);
    words(&mut text);
    sentences(&mut text);
    text
}

/// Marks, links, and the words that both must tell.
const WORDS: [(u64, u64, usize); 8] = [
    (0, 0, 1),
    (2, 1, 1),
    (8, 1, 4_096),
    (12, 0, 262_144),
    (30, 1, 1 << 56),
    (34, 0, 1 << 62),
    (34, 1, usize::MAX),
    (0, 40, usize::MAX),
];

#[test]
fn what_the_header_says_is_what_the_crate_says() {
    let expected = expected();
    for (marks, links, words) in WORDS {
        let line = format!("{marks} {links} {words}");
        assert!(expected.lines().any(|written| written == line), "{line}");
    }
    assert_eq!(written_by("helpers.c", "cc", C), expected);
    assert_eq!(written_by("helpers.c", "c++", CPP), expected);
}
