//! The comparisons of engines with one that is given.

use super::sheets::sheet;
use super::{Expected, Judge, Tally};
use crate::random::Random;
use crate::suites::times;

/// What parts and roles come to.
const SIZES: [usize; 3] = [10, 11, 12];

/// Made-up sheets whose parts and roles come to 10 to 12.
///
/// # Panics
///
/// Where an engine and the given one differ, or a sort of sheet is rare.
pub fn made_up_sheets(engines: &[Judge<'_>], yardstick: Judge<'_>) -> Tally {
    let mut random = Random::seeded(103);
    let mut tally = Tally::default();
    for turn in 0..times(600) as usize {
        let size = SIZES[turn / 4 % SIZES.len()];
        let expected = Expected::of(sheet(turn, size, &mut random), yardstick);
        tally.count(&expected);
        for engine in engines {
            tally.compare(engine, &expected, &mut random);
        }
    }
    tally.assert_none_differs();
    assert!(tally.met_in_steps >= 150, "{tally}");
    assert!(tally.unmet_in_steps >= 120, "{tally}");
    assert!(tally.inclusions.with >= 150, "{tally}");
    assert!(tally.inclusions.without >= 150, "{tally}");
    assert!(tally.roles[1..].iter().all(|&count| count >= 30), "{tally}");
    tally
}

/// A few sheets whose parts and roles come to 10.
pub struct Few(Vec<Expected>);

impl Few {
    #[must_use]
    pub fn of(yardstick: Judge<'_>) -> Self {
        let mut random = Random::seeded(104);
        let mut expected = |turn| Expected::of(sheet(turn, SIZES[0], &mut random), yardstick);
        Few((0..times(60) as usize).map(&mut expected).collect())
    }

    /// Compares an engine with the given one, and counts where they differ.
    #[must_use]
    pub fn compare(&self, engine: Judge<'_>) -> Tally {
        let mut random = Random::seeded(105);
        let mut tally = Tally::default();
        for expected in &self.0 {
            tally.count(expected);
            tally.compare(engine, expected, &mut random);
        }
        tally
    }
}
