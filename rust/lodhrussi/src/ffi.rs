//! The functions of the static library. Each answers the number of a refusal,
//! or 0; it writes `place` only on a refusal, all else only without one,
//! `condition` only when struck, `first` only where something breaks, and
//! `second` only where a pair does.

extern "C" {
    pub fn lodhrussi_read(
        sheet: *const u8,
        n: usize,
        place: *mut u64,
        traits: *mut u64,
        fresh: *mut u64,
        some: *mut u64,
        only: *mut u64,
        links: *mut u64,
    ) -> u64;

    pub fn lodhrussi_list_marks(
        sheet: *const u8,
        n: usize,
        list: *mut u8,
        len: usize,
        place: *mut u64,
    ) -> u64;

    pub fn lodhrussi_open(
        sheet: *const u8,
        n: usize,
        set: *mut u64,
        words: usize,
        place: *mut u64,
        size: *mut u64,
    ) -> u64;

    /// The verdict is 0 Absent, 1 Struck, 2 Kept; the condition 1 to 7.
    pub fn lodhrussi_strike(
        sheet: *const u8,
        n: usize,
        set: *mut u64,
        words: usize,
        number: u64,
        place: *mut u64,
        verdict: *mut u64,
        condition: *mut u64,
    ) -> u64;

    pub fn lodhrussi_settle(
        sheet: *const u8,
        n: usize,
        set: *mut u64,
        words: usize,
        place: *mut u64,
        survivors: *mut u64,
    ) -> u64;

    pub fn lodhrussi_judge(
        sheet: *const u8,
        n: usize,
        set: *mut u64,
        words: usize,
        place: *mut u64,
        opening: *mut u64,
        survivors: *mut u64,
        met: *mut u64,
    ) -> u64;

    pub fn lodhrussi_import(
        text: *const u8,
        n: usize,
        out: *mut u8,
        len: usize,
        place: *mut u64,
        written: *mut u64,
    ) -> u64;

    pub fn lodhrussi_export(
        sheet: *const u8,
        n: usize,
        out: *mut u8,
        len: usize,
        place: *mut u64,
        written: *mut u64,
    ) -> u64;

    /// The breach is 0 for none, 1 of an item, 2 of a pair.
    pub fn lodhrussi_check_plant(
        sheet: *const u8,
        n: usize,
        plant: *const u8,
        m: usize,
        set: *mut u64,
        words: usize,
        place: *mut u64,
        breach: *mut u64,
        first: *mut u64,
        second: *mut u64,
    ) -> u64;

    pub fn lodhrussi_draw_plant(
        sheet: *const u8,
        n: usize,
        set: *mut u64,
        words: usize,
        out: *mut u8,
        len: usize,
        place: *mut u64,
        written: *mut u64,
    ) -> u64;
}
