//! One part for one claim (document 02, N4), against a part for each occurrence.

use comparison::{claims, suites, worked, Reference};
use reference::{apart, judge, Refusal};

#[test]
fn parts_are_listed() {
    suites::listed_claims(&Reference);
}

#[test]
fn sheets_are_judged() {
    suites::judged_claims(&Reference);
}

#[test]
fn parts_apart() {
    for (what, hex, _, _, parts) in claims::LISTED {
        let counts = apart::read(&worked::from_hex(hex));
        assert_eq!(counts.map(|counts| counts.marks()), Ok(*parts), "{what}");
    }
}

#[test]
fn some_are_refused_apart() {
    let too_many = Refusal {
        number: 9,
        place: 0,
    };
    let mut refused = 0;
    for row in claims::judged() {
        let apart = apart::read(&row.sheet).map(|counts| counts.marks());
        if row.is_refused_apart() {
            assert_eq!(apart, Err(too_many), "{}", row.what);
            assert_eq!(apart::judge(&row.sheet, &mut [7; 8]), Err(too_many));
            refused += 1;
        } else {
            assert_eq!(apart, Ok(row.apart), "{}", row.what);
        }
    }
    assert_eq!(refused, 5);
}

#[test]
fn s1_three_times_apart() {
    let sheet = claims::said(3);
    let mut set = [7; 16];
    let apart = apart::judge(&sheet, &mut set).expect("four parts and a role");
    assert_eq!((apart.opening, apart.survivors, apart.met), (128, 16, true));
    let shared = judge(&sheet, &mut set).expect("two parts and a role");
    assert_eq!((shared.opening, shared.survivors), (32, 16));
}
