//! An engine against the reference: the call that draws a plant.

use super::Expected;
use crate::dominoes::list;
use crate::hex::Hex;
use crate::inclusions;
use crate::lent::{contents, Lent};
use crate::random::Random;
use crate::{Checking, Judging, Planting, Reference, REFUSALS};
use reference::{PlantCheck, Refusal};
use std::fmt;

/// Bytes on either side of an output, which no call may change.
const MARGIN: usize = 8;

/// Longer plants are drawn into fewer outputs.
const LONG: usize = 100_000;

/// How many results were compared, and of which sort.
#[derive(Default)]
pub struct Tally {
    pub comparisons: u64,
    /// Results that are not as they are to be, and what is said of the first.
    pub differences: u64,
    first_difference: Option<String>,
    pub sheets: u64,
    /// Those that are accepted, by parts and roles together.
    pub sizes: [u64; 13],
    pub inclusions: inclusions::Tally,
    pub plants: Plants,
    /// By the number of the refusal.
    pub refused: [u64; REFUSALS],
    /// Outputs that are too short: by one byte, and of no bytes.
    pub short_by_one: u64,
    pub empty: u64,
    /// Outputs just as long as needed, and longer ones.
    pub exact: u64,
    pub longer: u64,
}

/// Sheets that are drawn.
#[derive(Default)]
pub struct Plants {
    pub count: u64,
    /// Those of a sheet without roles, with four, with role inclusions, with fresh
    /// names, with restrictions.
    pub without_roles: u64,
    pub four_roles: u64,
    pub inclusions: u64,
    pub fresh: u64,
    pub restrictions: u64,
    /// Those with connections, with more than 256 individuals, with a name or fresh
    /// name past the eighth part.
    pub joined: u64,
    pub many: u64,
    pub wide: u64,
    /// The most survivors, and the bytes of all.
    pub most: u64,
    pub bytes: u64,
}

/// A call with what it is lent.
struct Call<'a> {
    sheet: &'a [u8],
    set: Vec<u64>,
    room: usize,
}

impl Tally {
    /// Counts a result, and says what it is of if it is not as it is to be.
    fn compare(&mut self, is_same: bool, of: impl FnOnce() -> String) {
        self.comparisons += 1;
        if !is_same {
            self.differences += 1;
            self.first_difference.get_or_insert_with(of);
        }
    }

    /// # Panics
    ///
    /// If a result was not as it is to be.
    pub fn assert_none_differs(&self) {
        if let Some(first) = &self.first_difference {
            panic!("{} differ, first {first}", self.differences);
        }
    }

    /// Makes a call by the engine. It must answer and leave what `then` does.
    fn call(
        &mut self,
        engine: &impl Planting,
        call: Call<'_>,
        then: impl FnOnce(&mut [u64], &mut [u8]) -> Result<usize, Refusal>,
        random: &mut Random,
    ) -> Result<usize, Refusal> {
        let Call { sheet, set, room } = call;
        let before = bytes(MARGIN + room + MARGIN, random);
        let out = MARGIN..MARGIN + room;

        let (mut words, mut bytes) = (Lent::new(&set), before.clone());
        let answer = engine.draw_plant(sheet, words.lend(), &mut bytes[out.clone()]);
        let (mut words_then, mut bytes_then) = (set, before);
        let expected = then(&mut words_then, &mut bytes_then[out]);

        let is_same = answer == expected && bytes == bytes_then && words.back() == Some(words_then);
        self.compare(is_same, || {
            let what = Hex(sheet);
            format!("drawing {what} into {room} bytes: {answer:?}, expected {expected:?}")
        });
        if let Err(refusal) = expected {
            self.refused[refusal.number as usize] += 1;
            self.inclusions.count_refusal(sheet, refusal);
        }
        expected
    }

    /// Draws a sheet with an output of that length.
    pub fn draw(
        &mut self,
        engine: &impl Planting,
        expected: &Expected,
        room: usize,
        random: &mut Random,
    ) {
        let more = random.pick(&[0, 0, 1, 7]);
        let set = contents(expected.judged.len() + more, random);
        let sheet = &expected.sheet;
        let call = Call { sheet, set, room };
        let then = |set: &mut [u64], out: &mut [u8]| expected.draw(set, out);
        match self.call(engine, call, then, random) {
            Ok(length) if length == room => self.exact += 1,
            Ok(_) => self.longer += 1,
            Err(Refusal { number: 21, .. }) => {
                self.short_by_one += u64::from(room + 1 == expected.needed());
                self.empty += u64::from(room == 0);
            }
            Err(_) => {}
        }
    }

    /// Draws a sheet that is refused, or with a set of so few words that it is.
    pub fn refuse(
        &mut self,
        engine: &impl Planting,
        sheet: &[u8],
        words: usize,
        random: &mut Random,
    ) {
        let set = contents(words, random);
        let room = random.pick(&[0, 9, 400]);
        let call = Call { sheet, set, room };
        let then = |set: &mut [u64], out: &mut [u8]| Reference.draw_plant(sheet, set, out);
        let refusal = self.call(engine, call, then, random);
        assert!(refusal.is_err(), "{} is accepted", Hex(sheet));
    }

    /// Everything that is compared of one sheet.
    pub fn compare_all(
        &mut self,
        engine: &(impl Planting + Checking + Judging),
        expected: &Expected,
        random: &mut Random,
    ) {
        self.count(expected);
        for room in rooms(expected, random) {
            self.draw(engine, expected, room, random);
        }
        let too_few = random.pick(&[0, expected.judged.len() - 1]);
        self.refuse(engine, &expected.sheet, too_few, random);
        self.judge(engine, expected, random);
        if expected.plant.is_ok() {
            self.hold(engine, expected, random);
        }
    }

    /// The engine's own judging leaves the same.
    fn judge(&mut self, engine: &impl Judging, expected: &Expected, random: &mut Random) {
        let mut set = contents(expected.judged.len(), random);
        let judged = engine.judge(&expected.sheet, &mut set);
        let is_same = judged.is_ok() && set == expected.judged;
        self.compare(is_same, || format!("judging {}", Hex(&expected.sheet)));
    }

    /// The plant that the engine draws holds by the engine's check, with the judged
    /// set; and by Table 1.
    fn hold(
        &mut self,
        engine: &(impl Planting + Checking),
        expected: &Expected,
        random: &mut Random,
    ) {
        let sheet = &expected.sheet;
        let words = expected.judged.len();
        let mut out = vec![0; expected.needed()];
        let drawn = engine.draw_plant(sheet, &mut contents(words, random), &mut out);
        let file = &out[..drawn.unwrap_or(0)];
        let mut set = contents(words, random);
        let check = engine.check_plant(sheet, file, &mut set);
        let holds = check == Ok(PlantCheck::Holds) && set == expected.judged;
        self.compare(holds, || format!("checking the plant of {}", Hex(sheet)));
        let is_shown = expected.is_shown_by(file);
        self.compare(is_shown, || {
            format!("the plant of {} by Table 1", Hex(sheet))
        });
    }

    /// Counts a sheet that is accepted.
    ///
    /// # Panics
    ///
    /// If its plant is longer than any of so many survivors and roles is to be.
    pub fn count(&mut self, expected: &Expected) {
        let counts = expected.counts;
        self.sheets += 1;
        self.sizes[(counts.marks() + counts.links) as usize] += 1;
        self.inclusions.count(&expected.sheet);
        if let Ok(plant) = &expected.plant {
            self.plants.count(expected, plant);
        }
    }
}

/// Lengths of outputs: of no bytes, and longer than needed; of a plant also just long
/// enough and too short by a byte, and if it is not long, by a few and by any.
fn rooms(expected: &Expected, random: &mut Random) -> Vec<usize> {
    let needed = expected.needed();
    let mut rooms = vec![0, needed + 1 + random.below(24)];
    if expected.plant.is_ok() {
        rooms.extend([needed, needed - 1]);
        if needed <= LONG {
            let few = 2 + random.below(9);
            rooms.extend([needed.saturating_sub(few), random.below(needed)]);
        }
    }
    rooms
}

/// So many bytes, a few random ones over and over.
fn bytes(len: usize, random: &mut Random) -> Vec<u8> {
    let few = random.bytes(61);
    let mut bytes = few.repeat(len.div_ceil(few.len()));
    bytes.truncate(len);
    bytes
}

impl Plants {
    fn count(&mut self, expected: &Expected, plant: &[u8]) {
        let counts = expected.counts;
        let survivors = expected.survivors();
        let individuals = 3 * survivors;
        let records = plant.chunks_exact(3).take(individuals as usize);
        let most = 3 * individuals + 36 * counts.links * survivors.pow(2);
        assert!(plant.len() as u64 <= most, "{}", Hex(&expected.sheet));
        self.count += 1;
        self.without_roles += u64::from(counts.links == 0);
        self.four_roles += u64::from(counts.links == 4);
        self.inclusions += u64::from(expected.has_inclusions());
        self.fresh += u64::from(counts.fresh > 0);
        self.restrictions += u64::from(counts.some + counts.only > 0);
        self.joined += u64::from(plant.len() as u64 > 3 * individuals);
        self.many += u64::from(individuals > 256);
        self.wide += u64::from(records.into_iter().any(|record| record[2] > 0));
        self.most = self.most.max(survivors);
        self.bytes += plant.len() as u64;
    }
}

impl fmt::Display for Tally {
    fn fmt(&self, f: &mut fmt::Formatter<'_>) -> fmt::Result {
        write!(
            f,
            "{} comparisons on {} sheets",
            self.comparisons, self.sheets
        )?;
        if self.plants.count > 0 {
            self.plants.fmt(f)?;
            write!(
                f,
                "; outputs just long enough {}, longer {}, short by a byte {}, empty {}",
                self.exact, self.longer, self.short_by_one, self.empty
            )?;
        }
        list(f, "; refusals", &self.refused)?;
        if self.sizes.iter().any(|&count| count > 0) {
            list(f, "; sheets by c + L", &self.sizes)?;
        }
        self.inclusions.fmt(f)
    }
}

impl fmt::Display for Plants {
    fn fmt(&self, f: &mut fmt::Formatter<'_>) -> fmt::Result {
        write!(
            f,
            ": {} plants of {} bytes, {} joined, {} without roles, {} with four, {} with role \
             inclusions, {} with restrictions, {} with fresh names, {} of more than 256 \
             individuals, {} with names past the eighth part; at most {} survivors",
            self.count,
            self.bytes,
            self.joined,
            self.without_roles,
            self.four_roles,
            self.inclusions,
            self.restrictions,
            self.fresh,
            self.many,
            self.wide,
            self.most
        )
    }
}
