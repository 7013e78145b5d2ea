//! Plants with what checking them says, and refusals, by hand; the sets also by
//! another program than the reference.

use crate::worked::{N8, S1, S5, S6};
use reference::PlantCheck::{self, Holds, Item, Pair};

/// A sheet and a plant in hex, what is said, and the numbers of the set.
pub type Checked = (&'static str, &'static str, PlantCheck, &'static [u64]);

/// Role 0 within role 1, and the inverse of role 0 within role 1.
pub const WITHIN: &str = "10 00 10 01 21 00 01";
const INVERSE_WITHIN: &str = "11 00 10 01 21 00 01";

/// Role 0 within role 1, and everything has name 0.
pub const WITHIN_AND_NAME: &str = "10 00 10 01 21 00 01 03 00 01 20 04 03";

/// What has name 0 is joined by role 0 only to what has not, which is fresh.
const ONLY_NOT: &str = "03 00 10 00 04 00 08 01 02 20 00 03";

/// What has name 0 is joined by role 0 only to what has it.
const ONLY: &str = "03 00 10 00 08 01 00 20 00 02";

/// Document 02's rows, then some of each rule.
pub const CHECKED: [Checked; 39] = [
    (S1, "40 01 00 41 00 00 00 00 00", Holds, &[63]),
    (S1, "40 01 00", Item(0), &[17]),
    (
        WITHIN,
        "40 00 00 40 00 00 41 00 00 01 00 00",
        Pair(0, 1),
        &[0, 1, 2],
    ),
    (
        S6,
        "40 01 00 40 04 00 41 00 00 01 00 00",
        Holds,
        &[99, 108, 132, 147],
    ),
    (
        S6,
        "40 01 00 40 00 00 41 00 00 01 00 00",
        Item(0),
        &[0, 17, 33, 40],
    ),
    // nothing at all; names alone; roles alone; joined twice
    ("", "40 00 00", Holds, &[0]),
    ("", "40 00 00 40 00 00", Holds, &[0]),
    ("03 00", "40 01 00 40 00 00", Holds, &[0, 1, 2, 3]),
    ("03 05", "40 3F 00", Holds, &[4_095]),
    ("03 05", "40 21 00 40 00 00", Holds, &[0, 33, 2_112, 2_145]),
    ("10 00", "40 00 00 41 00 00 00 00 00", Holds, &[3]),
    (
        "10 00",
        "40 00 00 40 00 00 41 00 00 01 00 00 41 00 00 01 00 00",
        Holds,
        &[0, 1, 2],
    ),
    (
        S6,
        "40 01 00 40 04 00 41 00 00 01 00 00 41 00 00 01 00 00",
        Holds,
        &[99, 108, 132, 147],
    ),
    // some: the filler is looked for at the other end, which may be the same
    (
        S1,
        "40 00 00 40 01 00 41 00 00 01 00 00",
        Item(1),
        &[17, 26, 34, 37],
    ),
    (
        S1,
        "40 01 00 40 00 00 41 00 00 01 00 00 41 01 00 00 00 00",
        Item(0),
        &[17, 30, 34, 45],
    ),
    // connections among the individuals
    (
        S1,
        "40 01 00 41 00 00 00 00 00 40 00 00 41 01 00 00 00 00",
        Holds,
        &[34, 39, 58, 63],
    ),
    // only: with nothing joined; not everything joined has the filler as drawn
    (ONLY_NOT, "40 01 00", Holds, &[99]),
    (
        ONLY_NOT,
        "40 01 00 40 00 00 41 00 00 01 00 00",
        Item(0),
        &[33, 42, 66, 81],
    ),
    (
        ONLY_NOT,
        "40 01 00 40 04 00 41 00 00 01 00 00",
        Holds,
        &[99, 110, 198, 211],
    ),
    (ONLY_NOT, "40 01 00 41 00 00 00 00 00", Item(0), &[57]),
    (
        ONLY,
        "40 01 00 40 00 00 41 00 00 01 00 00",
        Item(0),
        &[17, 22, 34, 41],
    ),
    (S5, "40 00 00 41 00 00 00 00 00", Holds, &[46]),
    // a fresh name whose filler holds, one not drawn whose filler holds, and
    // ones whose filler does not
    (S6, "40 04 00", Holds, &[132]),
    (S6, "40 00 00 41 00 00 00 00 00", Holds, &[24]),
    (
        S6,
        "40 05 00 40 05 00 41 00 00 01 00 00",
        Item(0),
        &[165, 183, 231, 237],
    ),
    (
        S6,
        "40 00 00 40 00 00 40 05 00 41 02 00 00 00 00",
        Item(2),
        &[0, 5, 21, 160, 165, 168],
    ),
    // the first of two individuals
    (
        S1,
        "40 01 00 41 00 00 00 00 00 40 00 00 40 00 00",
        Item(1),
        &[0, 3, 48, 63],
    ),
    // an individual comes before a pair
    (
        WITHIN_AND_NAME,
        "40 01 00 40 00 00 41 00 00 01 00 00",
        Item(1),
        &[0, 5, 33, 34],
    ),
    (
        WITHIN_AND_NAME,
        "40 01 00 40 01 00 41 00 00 01 00 00",
        Pair(0, 1),
        &[33, 35, 37],
    ),
    (
        N8,
        "40 00 00 40 00 00 41 00 00 01 00 00",
        Item(1),
        &[130, 139, 195, 198],
    ),
    // pairs by the first and then by the second
    (
        WITHIN,
        "40 00 00 40 00 00 40 00 00 41 02 00 00 00 00 41 01 00 02 00 00",
        Pair(1, 2),
        &[0, 1, 2],
    ),
    (
        WITHIN,
        "40 00 00 40 00 00 40 00 00 41 01 00 02 00 00 41 01 00 00 00 00",
        Pair(1, 0),
        &[0, 1, 2],
    ),
    (
        WITHIN,
        "40 00 00 40 00 00 40 00 00 41 02 00 00 00 00 41 00 00 02 00 00 41 00 00 01 00 00",
        Pair(0, 1),
        &[0, 1, 2, 3],
    ),
    (WITHIN, "40 00 00 41 00 00 00 00 00", Pair(0, 0), &[3]),
    (
        WITHIN,
        "40 00 00 40 00 00 41 01 00 01 00 00",
        Pair(1, 1),
        &[0, 3],
    ),
    (
        WITHIN,
        "40 00 00 41 00 00 00 00 00 41 00 00 00 00 01",
        Holds,
        &[15],
    ),
    // joined the other way round
    (
        INVERSE_WITHIN,
        "40 00 00 40 00 00 41 00 00 01 00 00",
        Pair(1, 0),
        &[0, 1, 2],
    ),
    (
        INVERSE_WITHIN,
        "40 00 00 40 00 00 41 00 00 01 00 00 41 01 00 00 00 01",
        Holds,
        &[0, 6, 9],
    ),
    (
        INVERSE_WITHIN,
        "40 00 00 40 00 00 41 00 00 01 00 00 41 00 00 01 00 01",
        Pair(1, 0),
        &[0, 5, 10],
    ),
];

/// A sheet and a plant in hex, and the number of the refusal, whose place is 0.
pub type Refused = (&'static str, &'static str, u64);

pub const REFUSED: [Refused; 47] = [
    // no individuals
    ("", "", 25),
    (S1, "", 25),
    // unknown kinds
    ("", "00", 22),
    (S1, "42", 22),
    (S1, "3F 00 00", 22),
    (S1, "40 01 00 20 00 00", 22),
    (S1, "C0 01 00", 22),
    (S6, "00 40 00 00", 22),
    (S6, "20 00 03", 22),
    (S6, "40 05 00 FF", 22),
    // cut off
    (S1, "40", 22),
    (S1, "40 01", 22),
    (S1, "40 01 00 41", 22),
    (S1, "40 01 00 41 00", 22),
    (S1, "40 01 00 41 00 00", 22),
    (S1, "40 01 00 41 00 00 00", 22),
    (S1, "40 01 00 41 00 00 00 00", 22),
    (S6, "40 05 00 40", 22),
    // cut off before what is wrong in it
    (S1, "40 02", 22),
    (S6, "40 05 00 40 02", 22),
    (S1, "41 00 00 00 00", 22),
    (S1, "40 01 00 41 09 00 09 00", 22),
    // bits of a restriction, past the last part, of the high byte
    (S1, "40 02 00", 24),
    (S1, "40 03 00", 24),
    (S1, "40 04 00", 24),
    (S1, "40 00 80", 24),
    (S6, "40 02 00", 24),
    (S6, "40 08 00", 24),
    (S6, "40 00 01", 24),
    (S6, "40 01 80", 24),
    (S6, "40 05 00 40 07 00", 24),
    ("", "40 01 00", 24),
    // individuals that are not there, or not yet
    (S1, "41 00 00 00 00 00", 24),
    (S1, "40 01 00 41 01 00 00 00 00", 24),
    (S1, "40 01 00 41 00 00 01 00 00", 24),
    (S1, "40 01 00 41 00 00 01 00 00 40 01 00", 24),
    (S1, "40 01 00 41 00 01 00 00 00", 24),
    (S1, "40 01 00 41 00 00 00 01 00", 24),
    (S6, "40 05 00 41 00 00 00 80 00", 24),
    (S6, "41 00 00 00 00 00 40 00 00", 24),
    // roles that are not there
    (S1, "40 01 00 41 00 00 00 00 01", 24),
    (S6, "40 05 00 41 00 00 00 00 FF", 24),
    ("03 00", "40 01 00 41 00 00 00 00 00", 24),
    // the first record at fault counts
    (S1, "40 01 00 40 02 00 42", 24),
    (S1, "40 01 00 42 40 02 00", 22),
    (S6, "42 40 02 00", 22),
    (S6, "40 05 00 41 00 00 01 00 00 40 05 00 40", 24),
];
