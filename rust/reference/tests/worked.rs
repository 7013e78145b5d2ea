//! Document 01's numbers for open, strike, settle and judge.

use comparison::{suites, worked, Reference};
use reference::{judge, open, settle, strike, Refusal, Verdict};

fn refused<T>(number: u64) -> Result<T, Refusal> {
    Err(Refusal { number, place: 0 })
}

#[test]
fn worked_sheets() {
    suites::worked_counts(&Reference);
    suites::worked_numbers(&Reference);
}

#[test]
fn numbers_past_the_last() {
    let sheet = worked::from_hex(worked::S1);
    let mut set = [5; 1];
    assert_eq!(strike(&sheet, &mut set, 64), refused(11));
    assert_eq!(strike(&sheet, &mut set, u64::MAX), refused(11));
    assert_eq!(set, [5]);
}

#[test]
fn words_needed() {
    // Eight names and a role: c + L is 9.
    let sheet = [0x03, 7, 0x10, 0];
    let mut set = vec![5; 4_095];
    assert_eq!(open(&sheet, &mut set), refused(10));
    assert_eq!(strike(&sheet, &mut set, u64::MAX), refused(10));
    assert_eq!(settle(&sheet, &mut set), refused(10));
    assert_eq!(judge(&sheet, &mut set), refused(10));
    assert_eq!(set, vec![5; 4_095]);
    set.push(5);
    assert_eq!(open(&sheet, &mut set), Ok(1 << 18));
    assert_eq!(set, vec![u64::MAX; 4_096]);

    let twelve = worked::from_hex(worked::TWELVE);
    assert_eq!(open(&twelve, &mut vec![0; 262_143]), refused(10));
    assert_eq!(open(&twelve, &mut vec![0; 262_144]), Ok(1 << 24));
}

#[test]
fn no_words_refuse_even_the_empty_sheet() {
    assert_eq!(open(&[], &mut []), refused(10));
    assert_eq!(strike(&[], &mut [], 0), refused(10));
    assert_eq!(settle(&[], &mut []), refused(10));
    assert_eq!(judge(&[], &mut []), refused(10));
}

#[test]
fn a_fault_of_the_sheet_comes_first() {
    let refusal = Refusal {
        number: 1,
        place: 2,
    };
    let sheet = [0x03, 0, 0xFF];
    assert_eq!(strike(&sheet, &mut [], u64::MAX), Err(refusal));
    assert_eq!(judge(&sheet, &mut []), Err(refusal));
}

#[test]
fn spare_bits_and_further_words() {
    // One name: four dominoes.
    let sheet = [0x03, 0];
    let full = [u64::MAX; 3];
    let mut set = full;
    assert_eq!(open(&sheet, &mut set), Ok(4));
    assert_eq!(set, [0xF, u64::MAX, u64::MAX]);

    let mut set = full;
    assert_eq!(settle(&sheet, &mut set), Ok(4));
    assert_eq!(set, [0xF, u64::MAX, u64::MAX]);

    let mut set = full;
    assert!(judge(&sheet, &mut set).is_ok());
    assert_eq!(set, [0xF, u64::MAX, u64::MAX]);

    let mut set = full;
    assert_eq!(strike(&sheet, &mut set, 4), refused(11));
    assert_eq!(
        strike(&sheet, &mut set, 3).map(|strike| strike.verdict),
        Ok(Verdict::Kept)
    );
    assert_eq!(set, full);

    // Without its converse, 2, domino 1 is defective; spare bits are no help.
    set[0] = !4;
    assert_eq!(
        strike(&sheet, &mut set, 1).map(|strike| strike.verdict),
        Ok(Verdict::Struck { condition: 6 })
    );
    assert_eq!(set, [!6, u64::MAX, u64::MAX]);
}
