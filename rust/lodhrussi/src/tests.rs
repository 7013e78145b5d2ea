//! Counts, and what a refused read leaves.

use super::*;
use comparison::random::Random;
use comparison::{damage, worked};

/// Counts of names, fresh names, existential and universal restrictions.
fn of_kinds([traits, fresh, some, only]: [u64; 4]) -> Counts {
    Counts {
        traits,
        fresh,
        some,
        only,
        // A digit that would show in the sum.
        links: 50_000,
    }
}

#[test]
fn marks_are_the_sum_of_the_counts_by_kind() {
    assert_eq!(of_kinds([0; 4]).marks(), 0);
    assert_eq!(of_kinds([1, 20, 300, 4_000]).marks(), 4_321);
    assert_eq!(of_kinds([u64::MAX / 4; 4]).marks(), u64::MAX - 3);
}

#[test]
fn marks_stop_at_the_largest_number() {
    const MOST: u64 = u64::MAX;
    const HALF: u64 = 1 << 63;
    for kinds in [
        [HALF, HALF, 0, 0],
        [0, HALF, HALF, 0],
        [0, 0, HALF, HALF],
        [HALF, 0, 0, HALF + 1],
        [1, 0, 0, MOST],
        [MOST, 1, 1, 1],
        [MOST; 4],
    ] {
        let counts = of_kinds(kinds);
        assert_eq!(counts.marks(), MOST, "{counts:?}");
        let without_links = Counts { links: 0, ..counts };
        assert_eq!(words_needed(without_links), usize::MAX, "{counts:?}");
    }
}

/// Asserts that a read that is refused writes its place alone.
fn assert_nothing_counted(sheet: &[u8]) {
    let (mut place, mut counts) = (6, [1, 2, 3, 4, 5]);
    let [traits, fresh, some, only, links] = &mut counts;
    // SAFETY: as in `read`.
    let number = unsafe {
        ffi::lodhrussi_read(
            sheet.as_ptr(),
            sheet.len(),
            &raw mut place,
            traits,
            fresh,
            some,
            only,
            links,
        )
    };
    let refusal = read(sheet).expect_err("a sheet with a fault");
    assert_eq!(
        (number, place),
        (refusal.number, refusal.place),
        "{sheet:02X?}"
    );
    assert_eq!(counts, [1, 2, 3, 4, 5], "{sheet:02X?}");
}

#[test]
fn a_refused_read_writes_no_count() {
    for (hex, ..) in worked::REFUSED {
        assert_nothing_counted(&worked::from_hex(hex));
    }
    let mut random = Random::seeded(20);
    for _ in 0..5_000 {
        let sheet = damage::damaged(&mut random);
        if read(&sheet).is_err() {
            assert_nothing_counted(&sheet);
        }
    }
}
