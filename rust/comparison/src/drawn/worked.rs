//! Sheets with their plants or the lengths of these, and refusals, by hand.

use crate::worked::{N8, N8_MET, S1, S3, S4, S5, S6};

/// A sheet in hex, and the bytes of its plant or the number of the refusal, whose
/// place is 0.
pub type Outcome = (&'static str, Result<usize, u64>);

/// Documents 01's and 02's sheets, and roles alone. S1 leaves 16 dominoes, and each
/// individual has 4 connections ahead and 4 back; S6 leaves 85, and a layer has 689
/// ahead and as many back. S5 leaves what S1 leaves; of document 02's sheet (N8) four
/// role sets are left, as of one role. The next three leave 9, 8 and 48, with 6, 2
/// and 26 ahead of each individual, and as many back; four roles have 256 role sets,
/// each role in half of them.
pub const OUTCOMES: [Outcome; 17] = [
    ("", Ok(9)),
    ("03 00", Ok(36)),
    ("10 00", Ok(324)),
    (S1, Ok(2_448)),
    (S6, Ok(25_569)),
    (S5, Ok(2_448)),
    (N8_MET, Ok(324)),
    ("10 00 10 01 12 01 21 00 02", Ok(81 + 6 * 27 * 12)),
    (
        "01 11 00 10 00 21 01 02 03 00 07 01 04 20 00 05",
        Ok(72 + 6 * 24 * 4),
    ),
    (
        "10 00 10 01 11 00 12 02 13 00 03 21 04 01 03 00 01 07 01 06 20 07 08",
        Ok(432 + 6 * 144 * 52),
    ),
    ("10 03", Ok(9 * 256 + 6 * 768 * (256 * 4))),
    ("01 10 00 03 00 07 01 02 20 00 03 02 20 02 05", Err(26)),
    (S3, Err(26)),
    (S4, Err(26)),
    (N8, Err(26)),
    ("03 0B", Err(27)),
    ("03 00 10 03", Err(27)),
];

/// A sheet in hex, the records of a layer's individuals, and those of connections.
pub type Plant = (&'static str, &'static str, &'static str);

/// Nothing; a name; a role that is within its inverse, so that two individuals have
/// it both ways or not at all; twelve names, of which all has the tenth, something
/// has the first and the last, and nothing has the others.
pub const PLANTS: [Plant; 4] = [
    ("", "40 00 00", ""),
    ("03 00", "40 00 00 40 01 00 40 00 00 40 01 00", ""),
    (
        "10 00 11 00 21 00 01",
        "40 00 00 40 00 00",
        "41 00 00 03 00 00 41 01 00 03 00 00 41 01 00 04 00 00 41 01 00 05 00 00 \
         41 02 00 05 00 00 41 03 00 00 00 00 41 03 00 01 00 00 41 03 00 05 00 00 \
         41 04 00 01 00 00 41 05 00 01 00 00 41 05 00 02 00 00 41 05 00 03 00 00",
    ),
    (
        "03 00 03 01 03 02 03 03 03 04 03 05 03 06 03 07 03 08 03 09 03 0A 03 0B 01 02 \
         20 01 0D 20 02 0D 20 03 0D 20 04 0D 20 05 0D 20 06 0D 20 07 0D 20 08 0D 20 0C 09 \
         20 0A 0D",
        "40 00 02 40 01 02 40 00 0A 40 01 0A 40 00 02 40 01 02 40 00 0A 40 01 0A \
         40 00 02 40 01 02 40 00 0A 40 01 0A 40 00 02 40 01 02 40 00 0A 40 01 0A",
        "",
    ),
];

/// Everything has name 0, or 1 and one of 2 and 3: eleven labels. Role 0 is from
/// something to something precisely if the first has not all four names, and never
/// both ways: 11 × 11 pairs not joined, 10 × 11 joined one way, 10 × 11 the other:
/// 341 dominoes. Ten labels begin 32 of them, the other 21; an individual of one of
/// the ten goes by role 0 to 11 of the next layer, and each to 10 of the one before.
pub const M341: &str = "03 00 03 01 03 02 03 03 06 02 03 05 01 04 06 00 05 01 20 07 06 \
                        10 00 02 08 09 0A 05 00 01 05 02 03 05 0C 0D 20 0B 0E \
                        08 09 0A 05 00 01 05 02 03 05 11 12 20 13 10 11 00 12 15 21 09 16";
pub const M341_BYTES: usize = 9 * 341 + 6 * 3 * (320 * 11 + 341 * 10);

/// Everything has name 0 or 1: twelve labels. Role 0 is from something precisely if
/// it has not names 0, 1 and one of 2 and 3, to something precisely if that has not
/// all four names, and never both ways: 12 × 12 + 2 × 9 × 11 are 342 dominoes.
pub const M342: &str = "03 00 03 01 03 02 03 03 06 00 01 01 20 05 04 10 00 11 00 02 \
                        08 07 09 06 02 03 05 01 0B 05 00 0C 20 0A 0D \
                        08 07 09 06 02 03 05 01 10 05 00 11 20 12 0F \
                        08 08 09 05 00 01 05 02 03 05 15 16 20 14 17 \
                        08 08 09 05 00 01 05 02 03 05 1A 1B 20 1C 19 12 08 21 07 1E";
