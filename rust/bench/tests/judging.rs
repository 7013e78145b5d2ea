//! Judging sheets of 10 to 12 parts and roles: by the product and by the plain engine
//! that goes by labels, against the one that goes by dominoes.

use bench::plain;
use comparison::labels::suites::{made_up_sheets, Few};
use comparison::labels::{Program, Slip};
use comparison::suites::report;
use reference::{Judgement, Refusal};

/// The product, with the refusals of the reference.
fn product(sheet: &[u8], set: &mut [u64]) -> Result<Judgement, Refusal> {
    let judged = lodhrussi::judge(sheet, set).map_err(|refusal| Refusal {
        number: refusal.number,
        place: refusal.place,
    })?;
    Ok(Judgement {
        opening: judged.opening,
        survivors: judged.survivors,
        met: judged.met,
    })
}

#[test]
fn large_sheets() {
    let tally = made_up_sheets(&[&product, &plain::judge_by_labels], &plain::judge);
    report("judging, c + L of 10 to 12", &tally);
}

/// One program more judges the same if it is right, and is caught if it is wrong.
#[test]
fn each_slip_is_caught() {
    let few = Few::of(&plain::judge);
    let compare = |slip| {
        let program = Program::with(slip);
        few.compare(&|sheet, set| program.judge(sheet, set))
    };
    let right = compare(None);
    right.assert_none_differs();
    report("judging, a few sheets", &right);
    let mut counts = Vec::new();
    for &slip in Slip::ALL {
        let tally = compare(Some(slip));
        assert!(tally.differences > 0, "{slip:?} is not seen");
        counts.push(format!(
            "{slip:?} {} of {}",
            tally.differences, tally.comparisons
        ));
    }
    report("judging, differences by slip", &counts.join(", "));
}
