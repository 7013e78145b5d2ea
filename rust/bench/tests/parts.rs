//! The sheets that are timed have the parts that they promise, with claims
//! shared and with each occurrence apart.

use bench::families::Family;
use bench::sheets;
use reference::{apart, read, Counts, Refusal};

fn marks(counts: Result<Counts, Refusal>) -> Result<u64, u64> {
    counts
        .map(|counts| counts.marks())
        .map_err(|refusal| refusal.number)
}

/// No claim is made twice.
#[test]
fn families() {
    for (family, _) in Family::JUDGED {
        for roles in 1..=4 {
            for parts in 1..=12 - roles {
                let sheet = family.sheet(parts, roles);
                let counts = read(sheet.bytes()).expect("a sheet without faults");
                assert_eq!(counts.marks(), u64::from(parts), "{}", family.name());
                assert_eq!(counts.links, u64::from(roles), "{}", family.name());
                assert_eq!(apart::read(sheet.bytes()), Ok(counts), "{}", family.name());
            }
        }
    }
}

#[test]
fn sheets_of_255_records() {
    let expected = [
        ("boolean tree", 6, Ok(6)),
        ("boolean chain", 6, Ok(6)),
        ("many axioms", 5, Ok(5)),
        ("12 restrictions", 11, Ok(11)),
        ("250 nots", 1, Ok(1)),
        ("unused records", 5, Ok(5)),
        ("one claim 126 times", 2, Err(9)),
        ("125 claims, 10 different", 10, Err(9)),
        ("role trees alike", 1, Ok(4)),
        ("role trees nearly alike", 8, Err(9)),
        ("251 role inclusions", 0, Ok(0)),
    ];
    for ((name, sheet), expected) in sheets::all().into_iter().zip(expected) {
        let counted = (
            marks(read(sheet.bytes())),
            marks(apart::read(sheet.bytes())),
        );
        assert_eq!((name, counted), (expected.0, (Ok(expected.1), expected.2)));
        // A record more is one too many.
        let more = [sheet.bytes(), &[0x01]].concat();
        assert_eq!(marks(read(&more)), Err(3), "{name}");
    }
}
