//! An engine against the reference: the check of a plant.

use super::drawing::{CONNECTION, INDIVIDUAL};
use super::fault::Case;
use crate::dominoes::list;
use crate::hex::Hex;
use crate::inclusions;
use crate::lent::{contents, Lent};
use crate::random::Random;
use crate::sharing::Sharing;
use crate::{Checking, Reference, REFUSALS};
use reference::domino::Shape;
use reference::plant::{breaches, Breaches};
use reference::{Counts, PlantCheck, Refusal};
use std::collections::HashSet;
use std::fmt;

/// So many individuals, and no more, are there where a plant is gone through in
/// one piece.
const FEW: usize = 128;

/// How many results were compared, and of which sort.
#[derive(Default)]
pub struct Tally {
    pub comparisons: u64,
    pub sheets: u64,
    /// Sheets that are accepted, by parts and roles together.
    pub sizes: [u64; 13],
    pub sharing: Sharing,
    pub inclusions: inclusions::Tally,
    /// By the number of the refusal.
    pub refused: [u64; REFUSALS],
    /// Files made with a fault that is known.
    pub cases: [u64; Case::COUNT],
    pub files: Files,
    pub holds: Holds,
    pub individuals: Individuals,
    pub pairs: Pairs,
    /// Sets just as long as needed, and longer ones.
    pub exact: u64,
    pub longer: u64,
}

/// Plants that are accepted.
#[derive(Default)]
pub struct Files {
    pub count: u64,
    /// Those with a connection, with one that comes more than once, with one of an
    /// individual to itself.
    pub joined: u64,
    pub repeating: u64,
    pub looping: u64,
    /// Those with an individual after a connection.
    pub mixed: u64,
    /// Those of more than 128 individuals, and of 1,024.
    pub many: u64,
    pub full: u64,
}

/// Plants of which all holds.
#[derive(Default)]
pub struct Holds {
    pub count: u64,
    pub joined: u64,
    pub many: u64,
}

/// Plants of which an individual breaks an axiom.
#[derive(Default)]
pub struct Individuals {
    pub count: u64,
    /// Those where it is not the first of all, and where it comes after 128 others.
    pub later: u64,
    pub past_many: u64,
    /// Those where others break one too, and where a pair breaks an inclusion.
    pub several: u64,
    pub with_pair: u64,
}

/// Plants of which a pair alone breaks an inclusion.
#[derive(Default)]
pub struct Pairs {
    pub count: u64,
    /// Those where the first of the pair is not the first of all, comes after 128
    /// others, comes after the second, and is the second.
    pub later: u64,
    pub past_many: u64,
    pub backward: u64,
    pub same: u64,
    /// Those where other pairs break one too, with the same first and with others.
    pub same_first: u64,
    pub several: u64,
}

fn place_of(case: Case) -> usize {
    let place = Case::ALL.iter().position(|&other| other == case);
    place.expect("one of all")
}

impl Tally {
    /// Counts a sheet that is accepted.
    pub fn count_sheet(&mut self, sheet: &[u8], counts: Counts) {
        self.sheets += 1;
        self.sizes[(counts.marks() + counts.links) as usize] += 1;
        self.sharing.count(sheet, counts);
        self.inclusions.count(sheet);
    }

    /// Counts a file made with a known fault.
    ///
    /// # Panics
    ///
    /// If that is none of all.
    pub fn count_case(&mut self, case: Case) {
        self.cases[place_of(case)] += 1;
    }

    /// How many files have that fault.
    ///
    /// # Panics
    ///
    /// If that is none of all.
    #[must_use]
    pub fn of_case(&self, case: Case) -> u64 {
        self.cases[place_of(case)]
    }

    /// Compares the call with a set that is long enough.
    ///
    /// # Panics
    ///
    /// Where engine and reference differ.
    pub fn compare(
        &mut self,
        engine: &impl Checking,
        (sheet, shape): (&[u8], Shape),
        plant: &[u8],
        random: &mut Random,
    ) -> Result<PlantCheck, Refusal> {
        let more = random.pick(&[0, 0, 1, 7]);
        self.exact += u64::from(more == 0);
        self.longer += u64::from(more > 0);
        let mut set = contents(shape.words() + more, random);
        self.call(engine, sheet, plant, &mut set)
    }

    /// Compares the call with a set that is too short.
    ///
    /// # Panics
    ///
    /// Where engine and reference differ.
    pub fn compare_short(
        &mut self,
        engine: &impl Checking,
        (sheet, shape): (&[u8], Shape),
        plant: &[u8],
        random: &mut Random,
    ) {
        let needed = shape.words();
        let words = match random.below(4) {
            0 => 0,
            1 => random.below(needed),
            _ => needed - 1,
        };
        let refusal = self.call(engine, sheet, plant, &mut contents(words, random));
        assert_eq!(refusal.unwrap_err().number, 10, "{}", Hex(sheet));
    }

    /// Makes the call by the engine and by the reference. Both must answer and
    /// leave the same; `set` is then what they leave.
    ///
    /// # Panics
    ///
    /// Where they differ.
    pub fn call(
        &mut self,
        engine: &impl Checking,
        sheet: &[u8],
        plant: &[u8],
        set: &mut Vec<u64>,
    ) -> Result<PlantCheck, Refusal> {
        let mut lent = Lent::new(set);
        let answer = engine.check_plant(sheet, plant, lent.lend());
        let after = lent.back();
        let before = set.clone();
        let expected = Reference.check_plant(sheet, plant, set);
        assert_eq!(answer, expected, "{}", Shown(sheet, plant));
        let same = after.as_ref() == Some(&*set);
        assert!(same, "words of {}", Shown(sheet, plant));
        self.comparisons += 1;
        match expected {
            Ok(check) => self.count(check, sheet, plant),
            Err(refusal) => {
                assert_eq!(*set, before, "{}", Shown(sheet, plant));
                self.refused[refusal.number as usize] += 1;
                self.inclusions.count_refusal(sheet, refusal);
            }
        }
        expected
    }

    fn count(&mut self, check: PlantCheck, sheet: &[u8], plant: &[u8]) {
        let file = Features::of(plant);
        self.files.count(&file);
        let many = u64::from(file.individuals > FEW);
        let breaches = || breaches(sheet, plant).expect("a plant that was accepted");
        match check {
            PlantCheck::Holds => {
                self.holds.count += 1;
                self.holds.joined += u64::from(file.joined);
                self.holds.many += many;
            }
            PlantCheck::Item(x) => self.individuals.count(x, &breaches()),
            PlantCheck::Pair(x, y) => self.pairs.count((x, y), &breaches()),
        }
    }
}

impl Files {
    fn count(&mut self, file: &Features) {
        self.count += 1;
        self.joined += u64::from(file.joined);
        self.repeating += u64::from(file.repeating);
        self.looping += u64::from(file.looping);
        self.mixed += u64::from(file.mixed);
        self.many += u64::from(file.individuals > FEW);
        self.full += u64::from(file.individuals == super::MOST);
    }
}

impl Individuals {
    fn count(&mut self, x: usize, breaches: &Breaches) {
        self.count += 1;
        self.later += u64::from(x > 0);
        self.past_many += u64::from(x >= FEW);
        self.several += u64::from(breaches.individuals.len() > 1);
        self.with_pair += u64::from(!breaches.pairs.is_empty());
    }
}

impl Pairs {
    fn count(&mut self, (x, y): (usize, usize), breaches: &Breaches) {
        let with_same_first = breaches.pairs.iter().filter(|(first, _)| *first == x);
        let with_same_first = with_same_first.count();
        self.count += 1;
        self.later += u64::from(x > 0);
        self.past_many += u64::from(x >= FEW);
        self.backward += u64::from(x > y);
        self.same += u64::from(x == y);
        self.same_first += u64::from(with_same_first > 1);
        self.several += u64::from(breaches.pairs.len() > with_same_first);
    }
}

/// What is seen of a file without faults.
#[derive(Default)]
struct Features {
    individuals: usize,
    joined: bool,
    repeating: bool,
    looping: bool,
    mixed: bool,
}

impl Features {
    fn of(plant: &[u8]) -> Self {
        let mut features = Features::default();
        let mut seen = HashSet::new();
        let mut rest = plant;
        while let Some(kind) = rest.first() {
            let length = if *kind == INDIVIDUAL { 3 } else { 6 };
            let (record, more) = rest.split_at(length);
            if *kind == CONNECTION {
                features.joined = true;
                features.looping |= record[1..3] == record[3..5];
                features.repeating |= !seen.insert(record);
            } else {
                features.individuals += 1;
                features.mixed |= features.joined;
            }
            rest = more;
        }
        features
    }
}

/// What is told where a comparison fails; of a long file the front.
struct Shown<'a>(&'a [u8], &'a [u8]);

impl fmt::Display for Shown<'_> {
    fn fmt(&self, f: &mut fmt::Formatter<'_>) -> fmt::Result {
        let Shown(sheet, plant) = self;
        write!(f, "{}, plant of {} bytes", Hex(sheet), plant.len())?;
        let mut front = plant.iter().take(2_000);
        front.try_for_each(|byte| write!(f, " {byte:02X}"))
    }
}

impl fmt::Display for Tally {
    fn fmt(&self, f: &mut fmt::Formatter<'_>) -> fmt::Result {
        write!(
            f,
            "{} comparisons on {} sheets, {} with sets just long enough and {} with longer ones",
            self.comparisons, self.sheets, self.exact, self.longer
        )?;
        if self.files.count > 0 {
            self.files.fmt(f)?;
            self.holds.fmt(f)?;
            self.individuals.fmt(f)?;
            self.pairs.fmt(f)?;
        }
        list(f, "; refusals", &self.refused)?;
        if self.cases.iter().any(|&count| count > 0) {
            list(f, "; known faults by case", &self.cases)?;
        }
        if self.sizes.iter().any(|&count| count > 0) {
            list(f, "; sheets by c + L", &self.sizes)?;
            self.sharing.fmt(f)?;
        }
        self.inclusions.fmt(f)
    }
}

impl fmt::Display for Files {
    fn fmt(&self, f: &mut fmt::Formatter<'_>) -> fmt::Result {
        write!(
            f,
            "; {} plants, {} joined, {} in mixed order, {} with repeated connections, {} with one \
             to itself, {} of more than 128 individuals, {} of 1,024",
            self.count, self.joined, self.mixed, self.repeating, self.looping, self.many, self.full
        )
    }
}

impl fmt::Display for Holds {
    fn fmt(&self, f: &mut fmt::Formatter<'_>) -> fmt::Result {
        write!(
            f,
            "; {} hold (joined {}, of more than 128 {})",
            self.count, self.joined, self.many
        )
    }
}

impl fmt::Display for Individuals {
    fn fmt(&self, f: &mut fmt::Formatter<'_>) -> fmt::Result {
        write!(
            f,
            "; of {} an individual breaks an axiom (not the first {}, past 128 {}, others too {}, \
             a pair too {})",
            self.count, self.later, self.past_many, self.several, self.with_pair
        )
    }
}

impl fmt::Display for Pairs {
    fn fmt(&self, f: &mut fmt::Formatter<'_>) -> fmt::Result {
        write!(
            f,
            "; of {} a pair alone breaks an inclusion (not from the first {}, past 128 {}, \
             backward {}, to itself {}, others from the same too {}, from others {})",
            self.count,
            self.later,
            self.past_many,
            self.backward,
            self.same,
            self.same_first,
            self.several
        )
    }
}
