//! Queues of sheets (document 02, N1), and made-up sheets to put into them.

use crate::dominoes::list;
use crate::random::Random;
use crate::{damage, few_axioms, made_up, worked, REFUSALS};
use std::fmt;

pub const SLOT_KIND: u8 = 0x30;
pub const END_KIND: u8 = 0x31;

/// A slot's bytes with its kind.
pub const SLOT: usize = 768;

/// The longest sheet that a slot may have.
pub const LONGEST: usize = 765;

/// What document 02 says is printed for a queue of S1 and S2.
pub const WORKED: [&str; 3] = [
    "0 met 16\n",
    "1 unmet 0\n",
    "sheets 2 met 1 unmet 1 refused 0 survivors 16\n",
];

/// The slots of that queue, without its end.
#[must_use]
pub fn worked_slots(random: &mut Random) -> Vec<u8> {
    let sheets = [1, 2].map(|number: usize| worked::from_hex(worked::JUDGED[number].0));
    slots(&sheets, random)
}

/// A slot that tells a length; its bytes are filled up with any, and cut where
/// there is no room.
///
/// # Panics
///
/// If the length takes more than two bytes.
#[must_use]
pub fn slot_telling(length: usize, bytes: &[u8], random: &mut Random) -> Vec<u8> {
    let length = u16::try_from(length).expect("a length of two bytes");
    let mut slot = vec![SLOT_KIND];
    slot.extend(length.to_le_bytes());
    slot.extend(&bytes[..bytes.len().min(LONGEST)]);
    let rest = random.bytes(SLOT - slot.len());
    slot.extend(rest);
    slot
}

/// The slot of a sheet.
#[must_use]
pub fn slot(sheet: &[u8], random: &mut Random) -> Vec<u8> {
    slot_telling(sheet.len(), sheet, random)
}

/// The slots of some sheets, without the end of the queue.
#[must_use]
pub fn slots<S: AsRef<[u8]>>(sheets: &[S], random: &mut Random) -> Vec<u8> {
    let slots = sheets.iter().map(|sheet| slot(sheet.as_ref(), random));
    slots.collect::<Vec<_>>().concat()
}

/// Any sheet, with faults or without, mostly of few parts and roles.
pub fn any_sheet(random: &mut Random) -> Vec<u8> {
    let size = 1 + random.below(7);
    match random.below(16) {
        0..=3 => made_up::small_sheet(size, random),
        4..=6 => few_axioms::sheet(size, random),
        7..=9 => few_axioms::unmet_sheet(size.min(6), random),
        10..=12 => damage::damaged(random),
        13 => damage::noise(random),
        14 => few_axioms::sheet(10 + random.below(3), random),
        _ if random.one_in(2) => made_up::sheet(random).bytes,
        _ => overlong_sheet(random),
    }
}

/// A sheet that goes on for about as long as a slot may have it.
fn overlong_sheet(random: &mut Random) -> Vec<u8> {
    let mut sheet = made_up::sheet(random).bytes;
    sheet.resize(LONGEST - 4 + random.below(9), 0x02);
    sheet
}

/// Any sheet whose parts and roles come to 8 or 9.
pub fn large_sheet(random: &mut Random) -> Vec<u8> {
    few_axioms::sheet(8 + random.below(2), random)
}

/// How many lines were compared, and of which sort the slots were.
#[derive(Default)]
pub struct Tally {
    pub queues: u64,
    pub comparisons: u64,
    pub met: u64,
    pub unmet: u64,
    /// By the number of the refusal.
    pub refused: [u64; REFUSALS],
}

impl Tally {
    /// Counts a queue and what its lines say.
    ///
    /// # Panics
    ///
    /// If a line is none of a queue's.
    pub fn count(&mut self, printed: &str) {
        self.queues += 1;
        for line in printed.lines() {
            match line.split(' ').collect::<Vec<_>>()[..] {
                [_, "met", _] => self.met += 1,
                [_, "unmet", _] => self.unmet += 1,
                [_, "refused", number] => self.refused[number.parse::<usize>().expect(line)] += 1,
                ["refused", "15"] => self.refused[15] += 1,
                ["sheets", ..] => {}
                _ => panic!("no line of a queue: {line}"),
            }
        }
    }

    #[must_use]
    pub fn slots(&self) -> u64 {
        let refused: u64 = self.refused.iter().sum();
        self.met + self.unmet + refused - self.refused[15]
    }
}

impl fmt::Display for Tally {
    fn fmt(&self, f: &mut fmt::Formatter<'_>) -> fmt::Result {
        write!(
            f,
            "{} comparisons on {} slots in {} queues: {} met, {} unmet",
            self.comparisons,
            self.slots(),
            self.queues,
            self.met,
            self.unmet
        )?;
        list(f, "; refusals", &self.refused)
    }
}
