//! Sheets whose restrictions are written alike, or nearly so (document 02, N4).

use crate::counting::{counts, Numbers};
use crate::hex::from_hex;
use reference::{Counts, Judgement};

/// What a sheet says, its hex, its numbers of parts and roles, what is listed for
/// each part, and how many parts it has with each occurrence apart.
pub type Listed = (&'static str, &'static str, Numbers, &'static [[u8; 3]], u64);

const T0: [u8; 3] = [0, 0, 0];
const T1: [u8; 3] = [0, 1, 0];

/// The part of a `some` after normal form, by its record; plain, then under an
/// odd number of nots.
const fn some(record: u8) -> [u8; 3] {
    [2, record, 0]
}

const fn some_odd(record: u8) -> [u8; 3] {
    [2, record, 1]
}

/// The same of an `only`.
const fn only(record: u8) -> [u8; 3] {
    [3, record, 0]
}

const fn only_odd(record: u8) -> [u8; 3] {
    [3, record, 1]
}

/// A fresh name, by its filler's record.
const fn fresh(record: u8) -> [u8; 3] {
    [1, record, 0]
}

const fn fresh_odd(record: u8) -> [u8; 3] {
    [1, record, 1]
}

/// Records 0 to 2 are name 0, role 0 and everything, unless said otherwise.
pub const LISTED: &[Listed] = &[
    (
        "some k0 t0, twice",
        "03 00  10 00  01  07 01 00  20 02 03  07 01 00  20 02 05",
        [1, 0, 1, 0, 1],
        &[T0, some(3)],
        3,
    ),
    (
        "only k0 t0, twice in one axiom",
        "03 00  10 00  01  08 01 00  08 01 00  05 03 04  20 02 05",
        [1, 0, 0, 1, 1],
        &[T0, only(3)],
        3,
    ),
    (
        "some k0 t0, then only k0 t0",
        "03 00  10 00  01  07 01 00  20 02 03  08 01 00  20 02 05",
        [1, 0, 1, 1, 1],
        &[T0, some(3), only(5)],
        3,
    ),
    // The record first met is listed: neither the first written nor the last met.
    (
        "some k0 t0, unused, then twice",
        "03 00  10 00  01  07 01 00  07 01 00  20 02 04  07 01 00  20 02 06",
        [1, 0, 1, 0, 1],
        &[T0, some(4)],
        3,
    ),
    (
        "some k0 t0, twice, the later record first",
        "03 00  10 00  01  07 01 00  07 01 00  20 02 04  20 02 03",
        [1, 0, 1, 0, 1],
        &[T0, some(4)],
        3,
    ),
    // Fillers.
    (
        "some k0 not not t0, then some k0 t0",
        "03 00  10 00  01  04 00  04 03  07 01 04  20 02 05  07 01 00  20 02 07",
        [1, 0, 1, 0, 1],
        &[T0, some(5)],
        3,
    ),
    (
        "some k0 t0, then some k0 not not t0",
        "03 00  10 00  01  07 01 00  20 02 03  04 00  04 05  07 01 06  20 02 07",
        [1, 0, 1, 0, 1],
        &[T0, some(3)],
        3,
    ),
    (
        "some k0 not not not t0, then some k0 t0",
        "03 00  10 00  01  04 00  04 03  04 04  07 01 05  20 02 06  07 01 00  20 02 08",
        [1, 1, 2, 0, 1],
        &[T0, some(6), fresh(5), some(8)],
        4,
    ),
    (
        "some k0 not t0, then some k0 not not not t0",
        "03 00  10 00  01  04 00  07 01 03  20 02 04  04 00  04 06  04 07  07 01 08  20 02 09",
        [1, 2, 2, 0, 1],
        &[T0, some(4), fresh(3), some(9), fresh(8)],
        5,
    ),
    (
        "some k0 t0, then some k0 t1",
        "03 00  10 00  01  07 01 00  20 02 03  03 01  07 01 05  20 02 06",
        [2, 0, 2, 0, 1],
        &[T0, T1, some(3), some(6)],
        4,
    ),
    (
        "some k0 t0, of two records of t0",
        "03 00  10 00  01  07 01 00  20 02 03  03 00  07 01 05  20 02 06",
        [1, 0, 1, 0, 1],
        &[T0, some(3)],
        3,
    ),
    (
        "some k0 everything, twice",
        "01  10 00  07 01 00  20 00 02  07 01 00  20 00 04",
        [0, 0, 1, 0, 1],
        &[some(2)],
        2,
    ),
    (
        "only k0 nothing, twice",
        "02  10 00  01  08 01 00  20 02 03  08 01 00  20 02 05",
        [0, 0, 0, 1, 1],
        &[only(3)],
        2,
    ),
    (
        "some k0 everything, then some k0 nothing",
        "01  10 00  02  07 01 00  20 00 03  07 01 02  20 00 05",
        [0, 0, 2, 0, 1],
        &[some(3), some(5)],
        2,
    ),
    (
        "some k0 everything, then some k0 not nothing",
        "01  10 00  02  07 01 00  20 00 03  04 02  07 01 05  20 00 06",
        [0, 0, 1, 0, 1],
        &[some(3)],
        2,
    ),
    (
        "some k0 t0, then some k0 everything",
        "03 00  10 00  01  07 01 00  20 02 03  07 01 02  20 02 05",
        [1, 0, 2, 0, 1],
        &[T0, some(3), some(5)],
        3,
    ),
    // A negated restriction, with the parity of the record first met.
    (
        "some k0 t0, then not only k0 not t0 as a left side",
        "03 00  10 00  01  07 01 00  20 02 03  04 00  08 01 05  20 06 02",
        [1, 0, 1, 0, 1],
        &[T0, some(3)],
        3,
    ),
    (
        "not only k0 not t0 as a left side, then some k0 t0",
        "03 00  10 00  01  04 00  08 01 03  20 04 02  07 01 00  20 02 06",
        [1, 0, 1, 0, 1],
        &[T0, some_odd(4)],
        3,
    ),
    (
        "some k0 t0, then not only k0 not t0",
        "03 00  10 00  01  07 01 00  20 02 03  04 00  08 01 05  04 06  20 02 07",
        [1, 0, 1, 0, 1],
        &[T0, some(3)],
        3,
    ),
    (
        "not only k0 not t0, then some k0 t0",
        "03 00  10 00  01  04 00  08 01 03  04 04  20 02 05  07 01 00  20 02 07",
        [1, 0, 1, 0, 1],
        &[T0, some_odd(4)],
        3,
    ),
    (
        "only k0 t0, then not some k0 not t0",
        "03 00  10 00  01  08 01 00  20 02 03  04 00  07 01 05  04 06  20 02 07",
        [1, 0, 0, 1, 1],
        &[T0, only(3)],
        3,
    ),
    (
        "not some k0 not t0, then only k0 t0",
        "03 00  10 00  01  04 00  07 01 03  04 04  20 02 05  08 01 00  20 02 07",
        [1, 0, 0, 1, 1],
        &[T0, only_odd(4)],
        3,
    ),
    (
        "some k0 everything, then not only k0 nothing",
        "01  10 00  02  07 01 00  20 00 03  08 01 02  04 05  20 00 06",
        [0, 0, 1, 0, 1],
        &[some(3)],
        2,
    ),
    (
        "some k0 t0 on the left, where it is only k0 not t0, and on the right",
        "03 00  10 00  01  07 01 00  07 01 00  20 03 04",
        [1, 1, 1, 1, 1],
        &[T0, only_odd(3), fresh_odd(0), some(4)],
        4,
    ),
    // Roles.
    (
        "some k0 t0, of two records of k0",
        "03 00  10 00  01  07 01 00  20 02 03  10 00  07 05 00  20 02 06",
        [1, 0, 1, 0, 1],
        &[T0, some(3)],
        3,
    ),
    (
        "some k0 t0, then some (k0 inverse) t0",
        "03 00  10 00  01  07 01 00  20 02 03  11 00  07 05 00  20 02 06",
        [1, 0, 2, 0, 1],
        &[T0, some(3), some(6)],
        3,
    ),
    (
        "some k0 t0, then some k1 t0",
        "03 00  10 00  01  07 01 00  20 02 03  10 01  07 05 00  20 02 06",
        [1, 0, 2, 0, 2],
        &[T0, some(3), some(6)],
        3,
    ),
    (
        "some (k0 and k1) t0, twice",
        "03 00  10 00  10 01  01  13 01 02  07 04 00  20 03 05  13 01 02  07 07 00  20 03 08",
        [1, 0, 1, 0, 2],
        &[T0, some(5)],
        3,
    ),
    (
        "some (k0 and k1) t0, then some (k1 and k0) t0",
        "03 00  10 00  10 01  01  13 01 02  07 04 00  20 03 05  13 02 01  07 07 00  20 03 08",
        [1, 0, 2, 0, 2],
        &[T0, some(5), some(8)],
        3,
    ),
    (
        "some (k0 or k1) t0, then some (k0 and k1) t0",
        "03 00  10 00  10 01  01  14 01 02  07 04 00  20 03 05  13 01 02  07 07 00  20 03 08",
        [1, 0, 2, 0, 2],
        &[T0, some(5), some(8)],
        3,
    ),
    (
        "some (k0 or k1) t0, then some (k1 or k0) t0",
        "03 00  10 00  10 01  01  14 01 02  07 04 00  20 03 05  14 02 01  07 07 00  20 03 08",
        [1, 0, 2, 0, 2],
        &[T0, some(5), some(8)],
        3,
    ),
    (
        "some k0 t0, then some (k0 and k0) t0",
        "03 00  10 00  01  07 01 00  20 02 03  13 01 01  07 05 00  20 02 06",
        [1, 0, 2, 0, 1],
        &[T0, some(3), some(6)],
        3,
    ),
    (
        "some k0 t0, then some (not not k0) t0",
        "03 00  10 00  01  07 01 00  20 02 03  12 01  12 05  07 06 00  20 02 07",
        [1, 0, 2, 0, 1],
        &[T0, some(3), some(7)],
        3,
    ),
    (
        "some (not not k0) t0, twice",
        "03 00  10 00  01  12 01  12 03  07 04 00  20 02 05  12 01  12 07  07 08 00  20 02 09",
        [1, 0, 1, 0, 1],
        &[T0, some(5)],
        3,
    ),
    (
        "some (k1 and not (k0 inverse or k1)) t0, twice, of other records of k0 and k1",
        "03 00  11 00  10 01  01  14 01 02  12 04  13 02 05  07 06 00  20 03 07 \
         11 00  10 01  14 09 0A  12 0B  10 01  13 0D 0C  07 0E 00  20 03 0F",
        [1, 0, 1, 0, 2],
        &[T0, some(7)],
        3,
    ),
    (
        "some (k1 and not (k0 inverse or k1)) t0, then with k0 in place of its inverse",
        "03 00  11 00  10 01  01  14 01 02  12 04  13 02 05  07 06 00  20 03 07 \
         10 00  14 09 02  12 0A  13 02 0B  07 0C 00  20 03 0D",
        [1, 0, 2, 0, 2],
        &[T0, some(7), some(13)],
        3,
    ),
    // Fresh fillers, and what is met inside them.
    (
        "some k0 not t0, twice",
        "03 00  10 00  01  04 00  07 01 03  20 02 04  04 00  07 01 06  20 02 07",
        [1, 2, 2, 0, 1],
        &[T0, some(4), fresh(3), some(7), fresh(6)],
        5,
    ),
    (
        "only k0 (t0 and t0), twice",
        "03 00  10 00  01  05 00 00  08 01 03  20 02 04  05 00 00  08 01 06  20 02 07",
        [1, 2, 0, 2, 1],
        &[T0, only(4), fresh(3), only(7), fresh(6)],
        5,
    ),
    (
        "some k0 some k0 t0, twice, then some k0 t0, which is met before those inside",
        "03 00  10 00  01  07 01 00  07 01 03  20 02 04  07 01 00  07 01 06  20 02 07 \
         07 01 00  20 02 09",
        [1, 2, 3, 0, 1],
        &[T0, some(4), fresh(3), some(7), fresh(6), some(9)],
        8,
    ),
    (
        "some k0 some k0 t0, twice",
        "03 00  10 00  01  07 01 00  07 01 03  20 02 04  07 01 00  07 01 06  20 02 07",
        [1, 2, 3, 0, 1],
        &[T0, some(4), fresh(3), some(7), fresh(6), some(3)],
        7,
    ),
    (
        "only k0 not some k0 not t0, which is only k0 only k0 t0, then only k0 t0",
        "03 00  10 00  01  04 00  07 01 03  04 04  08 01 05  20 02 06  08 01 00  20 02 08",
        [1, 1, 0, 2, 1],
        &[T0, only(6), fresh(5), only(8)],
        5,
    ),
    (
        "a filler that waits: every some k0 some k0 everything is only k0 some k0 everything, \
         and everything is some k0 everything",
        "01  10 00  07 01 00  08 01 02  07 01 00  07 01 04  07 01 00  20 05 03  20 00 06",
        [0, 2, 1, 3, 1],
        &[
            only_odd(5),
            fresh_odd(4),
            only(3),
            fresh(2),
            some(6),
            only_odd(4),
        ],
        7,
    ),
];

/// A sheet that makes a claim often, and what is said of it.
pub struct Judged {
    pub what: &'static str,
    pub sheet: Vec<u8>,
    pub counts: Counts,
    pub judgement: Judgement,
    /// How many parts it has with each occurrence apart.
    pub apart: u64,
}

impl Judged {
    /// Whether parts and roles come to more than 12 with each occurrence apart.
    #[must_use]
    pub fn is_refused_apart(&self) -> bool {
        self.apart + self.counts.links > 12
    }
}

/// S1's axiom so many times: everything is some k0 t0.
#[must_use]
pub fn said(times: u8) -> Vec<u8> {
    let mut sheet = from_hex("01  10 00  03 00");
    for turn in 0..times {
        sheet.extend([0x07, 1, 2, 0x20, 0, 3 + 2 * turn]);
    }
    sheet
}

/// Each of six names is some k0 t0.
pub const SIX_NAMES: &str = "03 00  10 00  03 01  03 02  03 03  03 04  03 05 \
    07 01 00  20 00 07  07 01 00  20 02 09  07 01 00  20 03 0B \
    07 01 00  20 04 0D  07 01 00  20 05 0F  07 01 00  20 06 11";

/// Then everything is t1, and t0 is nothing.
const AND_UNMET: &str = "01  02  20 13 02  20 00 14";

/// Sheets that make one claim often.
#[must_use]
pub fn judged() -> Vec<Judged> {
    let s1 = |what, times: u8| Judged {
        what,
        sheet: said(times),
        counts: counts([1, 0, 1, 0, 1]),
        judgement: judgement(32, 16),
        apart: 1 + u64::from(times),
    };
    let six_names = from_hex(SIX_NAMES);
    let unmet = [six_names.clone(), from_hex(AND_UNMET)].concat();
    vec![
        s1("S1", 1),
        s1("S1's axiom three times", 3),
        s1("S1's axiom ten times", 10),
        s1("S1's axiom eleven times", 11),
        s1("S1's axiom sixty times", 60),
        s1("S1's axiom as often as there is room for", 126),
        Judged {
            what: "six names",
            sheet: six_names,
            counts: counts([6, 0, 1, 0, 1]),
            judgement: judgement(33_152, 16_772),
            apart: 12,
        },
        Judged {
            what: "six names, unmet",
            sheet: unmet,
            counts: counts([6, 0, 1, 0, 1]),
            judgement: judgement(8_192, 0),
            apart: 12,
        },
    ]
}

fn judgement(opening: u64, survivors: u64) -> Judgement {
    Judgement {
        opening,
        survivors,
        met: survivors > 0,
    }
}
