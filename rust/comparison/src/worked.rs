//! Document 01's sheets to try and document 02's of N8, with what they say of
//! them.

pub use crate::hex::from_hex;

use crate::counting::Numbers;
use reference::Verdict;

/// A sheet that is judged: hex, numbers of parts and roles, opening, survivors, met.
pub type Judged = (&'static str, Numbers, u64, u64, bool);

pub const S1: &str = "01 10 00 03 00 07 01 02 20 00 03";
pub const S3: &str = "01 10 00 03 00 07 01 02 20 00 03 11 00 02 08 05 06 20 02 07";
pub const S4: &str = "10 00 01 08 00 01 02 20 02 03";
pub const S5: &str = "01 03 00 10 00 08 02 00 06 01 03 20 00 04";
pub const S6: &str = "03 00 10 00 04 00 07 01 02 20 00 03";

/// Document 02's sheet (N8): all is joined by role 0 to something, and by role 1
/// to nothing; the first inclusion of role 0 in role 1 leaves it no model.
pub const N8_MET: &str = "01 10 00 10 01 02 07 01 00 20 00 04 08 02 03 20 00 06";
pub const N8: &str = "01 10 00 10 01 02 07 01 00 20 00 04 08 02 03 20 00 06 21 01 02";

/// S0 to S6, the sheet of one name, document 02's two sheets (N8), and three more
/// with role inclusions: role 0 in not role 1; the inverse of role 0 in role 0;
/// role 0 and not its inverse in role 1.
pub const JUDGED: [Judged; 13] = [
    ("", [0, 0, 0, 0, 0], 1, 1, true),
    (S1, [1, 0, 1, 0, 1], 32, 16, true),
    (
        "01 10 00 03 00 07 01 02 20 00 03 02 20 02 05",
        [1, 0, 1, 0, 1],
        16,
        0,
        false,
    ),
    (S3, [1, 0, 1, 1, 1], 64, 0, false),
    (S4, [0, 0, 1, 0, 1], 8, 0, false),
    (S5, [1, 0, 0, 1, 1], 48, 16, true),
    (S6, [1, 1, 1, 0, 1], 144, 85, true),
    ("03 00", [1, 0, 0, 0, 0], 4, 4, true),
    (N8_MET, [0, 0, 1, 1, 2], 32, 4, true),
    (N8, [0, 0, 1, 1, 2], 16, 0, false),
    ("10 00 10 01 12 01 21 00 02", [0, 0, 0, 0, 2], 12, 9, true),
    (
        "01 11 00 10 00 21 01 02 03 00 07 01 04 20 00 05",
        [1, 0, 1, 0, 1],
        24,
        8,
        true,
    ),
    (
        "10 00 10 01 11 00 12 02 13 00 03 21 04 01 03 00 01 07 01 06 20 07 08",
        [1, 0, 1, 0, 2],
        112,
        48,
        true,
    ),
];

/// The words that open and then settle leave of each, worked out by a third
/// program from a list of the dominoes and the conditions one by one.
pub const WORDS: [(&[u64], &[u64]); 13] = [
    (&[0x1], &[0x1]),
    (&[0xffff_ffff_0000_0000], &[0xcccc_cccc_0000_0000]),
    (&[0x0000_ffff_0000_0000], &[0]),
    (&[0, 0xffff_ffff, 0, 0x0000_ffff_0000_ffff], &[0; 4]),
    (&[0xff00], &[0]),
    (&[0xffff_ffff_ffff_0000], &[0xcccc_cccc_0000_0000]),
    (
        &[0x0fff_0fff, u64::MAX, 0x0fff_0fff, 0xffff_ffff],
        &[0x0d5d_0d5d, 0x5d5d_5d5d_5d5d_5d5d, 0x0c4c_0d5d, 0x4c4c_5d5d],
    ),
    (&[0xf], &[0xf]),
    (&[0, 0, 0, 0x0000_ffff_0000_ffff], &[0, 0, 0, 0x8888]),
    (&[0, 0, 0, 0x0f0f_0000_0f0f], &[0; 4]),
    (&[0x5f5f], &[0x135f]),
    (&[0xf0ff_f0ff_0000_0000], &[0xc00c_c00c_0000_0000]),
    (
        &[0, 0, 0xffff_ff0f_ffff_ff0f, 0xffff_ff0f_ffff_ff0f],
        &[0, 0, 0xcccc_cc0c_c0cc_c00c, 0xcccc_cc0c_c0cc_c00c],
    ),
];

/// Sheets of one part and an inclusion of role 0 in role 1: all is some of role 0
/// with filler nothing, all is only that, nothing is some of role 0.
const SOME_NOTHING: &str = "10 00 10 01 02 07 00 02 01 20 04 03 21 00 01";
const ONLY_NOTHING: &str = "10 00 10 01 02 08 00 02 01 20 04 03 21 00 01";
const NONE_IS_SOME: &str = "10 00 10 01 02 01 07 00 03 20 02 04 21 00 01";

/// What a set holds before a strike.
#[derive(Clone, Copy, Debug)]
pub enum Before {
    Opened,
    Full,
}

/// A strike: hex, the set before, the number, the verdict.
pub type Struck = (&'static str, Before, u64, Verdict);

/// Document 01's strikes on S1 opened, then one by each of the conditions 1 to
/// 5, then some on document 02's sheet (N8), and where 7 fails with one of 1 to 3,
/// which come before it, or with 4, which comes after.
pub const STRUCK: [Struck; 17] = [
    (S1, Before::Opened, 32, Verdict::Struck { condition: 6 }),
    (S1, Before::Opened, 2, Verdict::Absent),
    (S1, Before::Opened, 34, Verdict::Kept),
    (S1, Before::Full, 0, Verdict::Struck { condition: 1 }),
    (S6, Before::Full, 12, Verdict::Struck { condition: 2 }),
    (S3, Before::Full, 208, Verdict::Struck { condition: 3 }),
    (S4, Before::Opened, 8, Verdict::Struck { condition: 4 }),
    (S5, Before::Opened, 16, Verdict::Struck { condition: 5 }),
    (N8, Before::Full, 196, Verdict::Struck { condition: 7 }),
    (N8, Before::Full, 192, Verdict::Kept),
    (N8, Before::Opened, 192, Verdict::Struck { condition: 4 }),
    (N8, Before::Opened, 196, Verdict::Absent),
    (
        SOME_NOTHING,
        Before::Full,
        2,
        Verdict::Struck { condition: 1 },
    ),
    (
        NONE_IS_SOME,
        Before::Full,
        2,
        Verdict::Struck { condition: 2 },
    ),
    (
        ONLY_NOTHING,
        Before::Full,
        34,
        Verdict::Struck { condition: 3 },
    ),
    (
        SOME_NOTHING,
        Before::Full,
        34,
        Verdict::Struck { condition: 7 },
    ),
    (
        SOME_NOTHING,
        Before::Full,
        32,
        Verdict::Struck { condition: 4 },
    ),
];

/// A sheet that is refused: hex, number, place.
pub type Refused = (&'static str, u64, u64);

/// Those of documents 01 and 02, then a role for a concept, a concept for a
/// role, axioms and a role inclusion that are named, and an inclusion of a role
/// that holds on the empty role set.
pub const REFUSED: [Refused; 12] = [
    ("03 0C", 4, 0),
    ("03 0B 10 00", 9, 0),
    ("04 00", 5, 1),
    ("03 00 04 00 05 01 01", 7, 6),
    ("10 00 12 00 01 07 01 02", 8, 5),
    ("10 00 07 00 00", 6, 4),
    ("01 10 00 07 00 01", 16, 4),
    ("01 20 00 00 04 01", 17, 5),
    ("01 20 00 00 12 01", 17, 5),
    ("01 20 00 00 10 00 07 02 01", 17, 8),
    ("10 00 21 00 00 12 01", 17, 6),
    ("10 00 12 00 21 01 00", 8, 4),
];

/// The sheet of twelve parts.
pub const TWELVE: &str = "03 0B";

/// Every sheet: judged, of twelve parts, refused.
pub fn all() -> impl Iterator<Item = Vec<u8>> {
    let judged = JUDGED.iter().map(|&(hex, ..)| hex);
    let refused = REFUSED.iter().map(|&(hex, ..)| hex);
    judged.chain([TWELVE]).chain(refused).map(from_hex)
}
