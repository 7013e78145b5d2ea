//! The call that draws a plant (document 02, N11): worked by hand, by the check of a
//! plant, by 002's Table 1 on axioms as written, and by programs that are wrong.

use comparison::drawn::suites::{self, Few};
use comparison::drawn::{Program, Slip};
use comparison::suites::report;
use comparison::Reference;

#[test]
fn fixed_sheets() {
    report("drawn, fixed sheets", &suites::fixed(&Reference));
}

#[test]
fn limits() {
    report("drawn, 341 and 342 survivors", &suites::limits(&Reference));
}

/// The plants of the reference hold, and another program, which goes by the role set
/// between each two individuals, draws the same.
#[test]
fn few_sheets_of_each_sort() {
    let few = Few::of_each();
    few.compare(&Reference).assert_none_differs();
    let tally = few.compare(&Program::with(None));
    tally.assert_none_differs();
    report("drawn, a few sheets of each sort", &tally);
}

#[test]
fn each_slip_is_caught() {
    let few = Few::of_each();
    let mut counts = Vec::new();
    for &slip in Slip::ALL {
        let tally = few.compare(&Program::with(Some(slip)));
        assert!(tally.differences > 0, "{slip:?} is not seen");
        counts.push(format!(
            "{slip:?} {} of {}",
            tally.differences, tally.comparisons
        ));
    }
    report("drawn, differences by slip", &counts.join(", "));
}
