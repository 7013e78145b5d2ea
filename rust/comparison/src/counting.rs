//! Counts of parts by kind (document 02, N9): sheets that tell them apart, and a
//! tally.

use reference::Counts;
use std::fmt;

/// The numbers of names, fresh names, existential and universal restrictions, and
/// roles.
pub type Numbers = [u64; 5];

/// Sheets with their numbers, by pairs: the numbers all different, and the same
/// claims on left sides; parts of each kind, with the roles as many as there may
/// be, and some and only exchanged; names alone, and roles alone.
pub const COUNTED: [(&str, Numbers); 6] = [
    (
        "01  02  10 00  11 00  07 02 00  20 00 04  07 03 00  20 00 06 \
         05 00 00  07 02 08  20 00 09  08 02 01  20 00 0B  08 03 01  20 00 0D \
         08 02 00  20 00 0F  05 00 00  08 02 11  20 00 12",
        [0, 2, 3, 4, 1],
    ),
    (
        "01  02  10 00  11 00  07 02 00  20 04 01  07 03 00  20 06 01 \
         05 00 00  07 02 08  20 09 01  08 02 01  20 0B 01  08 03 01  20 0D 01 \
         08 02 00  20 0F 01  05 00 00  08 02 11  20 12 01",
        [0, 2, 4, 3, 1],
    ),
    (
        "03 00  10 00  10 01  01  02  07 01 00  20 03 05  07 02 00  20 03 07 \
         04 00  07 01 09  20 03 0A  08 01 00  20 03 0C  08 02 00  20 03 0E \
         08 01 04  20 03 10  04 00  08 02 12  20 03 13",
        [1, 2, 3, 4, 2],
    ),
    (
        "03 00  10 00  10 01  01  02  08 01 00  20 03 05  08 02 00  20 03 07 \
         04 00  08 01 09  20 03 0A  07 01 00  20 03 0C  07 02 00  20 03 0E \
         07 01 04  20 03 10  04 00  07 02 12  20 03 13",
        [1, 2, 4, 3, 2],
    ),
    ("03 0B", [12, 0, 0, 0, 0]),
    ("10 03", [0, 0, 0, 0, 4]),
];

/// The counts of these numbers.
#[must_use]
pub fn counts([traits, fresh, some, only, links]: Numbers) -> Counts {
    Counts {
        traits,
        fresh,
        some,
        only,
        links,
    }
}

/// The counts of parts, by the number of the kind.
pub(crate) fn by_kind(counts: Counts) -> [u64; 4] {
    [counts.traits, counts.fresh, counts.some, counts.only]
}

/// How many sheets have parts of some kinds, of those that are accepted.
#[derive(Clone, Copy, Default)]
pub struct Tally {
    /// Those with a part of a kind, by its number.
    pub with: [u64; 4],
    /// Those with a part of each kind.
    pub with_each: u64,
    /// Those whose four counts all differ.
    pub all_differ: u64,
    /// Those whose counts of existential and universal restrictions differ.
    pub some_not_only: u64,
}

impl Tally {
    /// Counts a sheet that is accepted.
    pub fn count(&mut self, counts: Counts) {
        let kinds = by_kind(counts);
        for (with, count) in self.with.iter_mut().zip(kinds) {
            *with += u64::from(count > 0);
        }
        let mut numbers = 0..kinds.len();
        let all_differ = numbers.all(|kind| !kinds[..kind].contains(&kinds[kind]));
        self.with_each += u64::from(!kinds.contains(&0));
        self.all_differ += u64::from(all_differ);
        self.some_not_only += u64::from(counts.some != counts.only);
    }
}

impl fmt::Display for Tally {
    fn fmt(&self, f: &mut fmt::Formatter<'_>) -> fmt::Result {
        let [names, fresh, some, only] = self.with;
        write!(
            f,
            "; sheets with names: {names}, fresh names: {fresh}, existential restrictions: {some}, \
             universal ones: {only}, all four: {}, four different counts: {}, unlike counts of \
             restrictions: {}",
            self.with_each, self.all_differ, self.some_not_only
        )
    }
}
