//! The calls from and to OWL 2 functional-style syntax, against the independent
//! reference.

mod product;

use comparison::owl::{nested, suites};
use comparison::suites::report;
use product::Product;
use std::thread::Builder;

#[test]
fn fixed_texts_and_sheets() {
    suites::fixed(&Product);
}

#[test]
fn limits() {
    suites::most_records(&Product);
    suites::nesting(&Product);
}

#[test]
fn made_up_texts() {
    let tally = suites::made_up_texts(&Product);
    report("importing, made-up and damaged texts", &tally);
}

#[test]
fn beginnings_and_lengths() {
    let tally = suites::beginnings_and_lengths(&Product);
    report("beginnings of texts, outputs of every length", &tally);
}

#[test]
fn long_texts() {
    let tally = suites::long_texts(&Product);
    report("importing, texts of 1 MB", &tally);
}

#[test]
fn made_up_sheets() {
    let tally = suites::made_up_sheets(&Product);
    report("exporting, made-up sheets", &tally);
}

#[test]
fn round_trips() {
    let trips = suites::round_trips(&Product);
    report("exported and imported again", &trips);
}

/// What a thread of that many bytes is enough for.
const STACK: usize = 256 << 10;

#[test]
fn forms_in_forms_on_a_small_stack() {
    let small = Builder::new().stack_size(STACK);
    let thread = small.spawn(|| {
        for nots in [250, 252] {
            let text = nested(nots);
            let sheet = lodhrussi::imported(text.as_bytes())?;
            assert_eq!(lodhrussi::exported(&sheet)?, text);
        }
        let refusal = lodhrussi::imported(nested(253).as_bytes()).unwrap_err();
        assert_eq!((refusal.number, refusal.place), (3, 0));
        Ok::<_, lodhrussi::Refusal>(())
    });
    let done = thread.expect("a thread").join();
    assert_eq!(done.expect("room on the stack"), Ok(()));
}

/// What allocates gives what is written into an output.
#[test]
fn sheets_and_texts_of_their_own() {
    for (text, hex) in comparison::owl::worked::BOTH_WAYS {
        let sheet = comparison::worked::from_hex(hex);
        assert_eq!(lodhrussi::imported(text.as_bytes()), Ok(sheet.clone()));
        assert_eq!(lodhrussi::exported(&sheet).as_deref(), Ok(text));
    }
    for (text, outcome) in comparison::owl::worked::IMPORTED {
        let imported = lodhrussi::imported(text.as_bytes());
        let imported = imported.map_err(|refusal| (refusal.number, refusal.place));
        let expected = outcome.map(comparison::worked::from_hex);
        assert_eq!(imported, expected, "{text:?}");
    }
}
