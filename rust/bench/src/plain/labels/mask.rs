//! Labels by parts that they have and parts that they lack.

use crate::plain::initial::BITS;
use reference::flat::Filler;

/// The labels with each part of `have` and none of `lack`.
#[derive(Clone, Copy)]
pub struct Mask {
    have: u16,
    lack: u16,
}

impl Mask {
    pub const ALL: Mask = Mask { have: 0, lack: 0 };
    pub const NONE: Mask = Mask { have: 1, lack: 1 };

    pub fn new(have: u16, lack: u16) -> Self {
        Mask { have, lack }
    }

    /// The labels that have a filler.
    pub fn with(filler: Filler) -> Self {
        match filler {
            Filler::Top => Mask::ALL,
            Filler::Bottom => Mask::NONE,
            Filler::Part(part) => Mask::new(1 << part, 0),
        }
    }

    /// Those that lack it.
    pub fn without(filler: Filler) -> Self {
        match filler {
            Filler::Top => Mask::NONE,
            Filler::Bottom => Mask::ALL,
            Filler::Part(part) => Mask::new(0, 1 << part),
        }
    }

    pub fn and(self, other: Mask) -> Self {
        Mask::new(self.have | other.have, self.lack | other.lack)
    }

    /// Whether there is no such label.
    pub fn clashes(self) -> bool {
        self.have & self.lack != 0
    }

    /// How many parts are asked for, or asked away.
    pub fn parts(self) -> u32 {
        (self.have | self.lack).count_ones()
    }

    /// By the six lowest parts alone.
    pub fn pattern(self) -> u64 {
        WITH[usize::from(self.have % 64)] & WITHOUT[usize::from(self.lack % 64)]
    }

    /// By the parts above alone: those of so many words, a power of two.
    pub fn words(self, words: usize) -> impl Iterator<Item = usize> {
        let (have, lack) = (usize::from(self.have / 64), usize::from(self.lack / 64));
        let free = (words - 1) & !(have | lack);
        let mut next = Some(0_usize);
        std::iter::from_fn(move || {
            let some = next?;
            let more = some.wrapping_sub(free) & free;
            next = (more != 0).then_some(more);
            Some(have | some)
        })
    }
}

/// By a set of parts: the labels below 64 that have each.
const WITH: [u64; 64] = patterns(false);

/// Those that have none.
const WITHOUT: [u64; 64] = patterns(true);

const fn patterns(without: bool) -> [u64; 64] {
    let mut patterns = [u64::MAX; 64];
    let mut parts = 1_usize;
    while parts < 64 {
        let with = BITS[parts.trailing_zeros() as usize];
        let labels = if without { !with } else { with };
        patterns[parts] = patterns[parts & (parts - 1)] & labels;
        parts += 1;
    }
    patterns
}
