//! Every plant of few individuals, against the reference and against 002's Table 1.

use super::{Connection, Drawing, Ground, Tally};
use crate::hex::from_hex;
use crate::lent::contents;
use crate::random::Random;
use crate::worked::JUDGED;
use crate::Checking;
use reference::written::Written;
use reference::PlantCheck;
use std::collections::BTreeMap;
use std::fmt;

/// Sheets with a fresh name. What has name 0 is joined only to what has not; is
/// joined to something that is joined to what has it. All is joined by the inverse
/// to what is joined only to what has it, and role 0 is within its inverse.
const WITH_FRESH: [&str; 3] = [
    "03 00 10 00 04 00 08 01 02 20 00 03",
    "03 00 10 00 07 01 00 07 01 02 20 00 03",
    "03 00 10 00 11 00 08 01 00 07 02 03 01 20 05 04 21 01 02",
];

/// The most bits that tell the plants of a sheet and of a size apart: all sizes but
/// three individuals with two roles.
const MOST_BITS: usize = 17;

/// By names and connections alone: whether the plant holds with some choice of
/// fresh names.
type Holding = BTreeMap<(Vec<u16>, Vec<Connection>), bool>;

/// The plant that the bits of a number describe.
fn plant(ground: &Ground, size: usize, mut bits: u64) -> Drawing {
    let mut take = || {
        let taken = bits & 1;
        bits >>= 1;
        taken
    };
    let mut drawing = Drawing::default();
    for _ in 0..size {
        let mut individual = 0;
        for part in (0..16).filter(|part| ground.free >> part & 1 == 1) {
            individual |= (take() as u16) << part;
        }
        drawing.individuals.push(individual);
    }
    for x in 0..size {
        for y in 0..size {
            for role in 0..ground.shape.roles {
                drawing.connect(x, y, take() << (2 * role));
            }
        }
    }
    drawing
}

/// What came of every plant.
#[derive(Default)]
pub struct Every {
    pub tally: Tally,
    /// Names and connections that are a model.
    pub models: u64,
}

impl Every {
    /// Compares every plant of so many individuals, told apart by so many bits.
    fn compare(
        &mut self,
        engine: &impl Checking,
        ground: &Ground,
        size: usize,
        bits: usize,
    ) -> Holding {
        let mut random = Random::seeded(67);
        let mut holding = Holding::new();
        let names = (1 << ground.counts.traits) - 1;
        for bits in 0..1 << bits {
            let drawing = plant(ground, size, bits);
            let file = drawing.file(&mut random);
            let mut set = contents(ground.shape.words(), &mut random);
            let check = self.tally.call(engine, &ground.sheet, &file, &mut set);
            let named = drawing.individuals.iter().map(|bits| bits & names);
            let holds = holding.entry((named.collect(), drawing.connections));
            *holds.or_default() |= check == Ok(PlantCheck::Holds);
        }
        holding
    }

    /// Names and connections are a model precisely if the plant holds with some
    /// choice of fresh names.
    fn sheet(&mut self, engine: &impl Checking, hex: &str) {
        let ground = Ground::of(from_hex(hex));
        let written = Written::read(&ground.sheet).expect("a sheet without faults");
        self.tally.count_sheet(&ground.sheet, ground.counts);
        for size in 1..=3 {
            let of_each = ground.free.count_ones() as usize + size * ground.shape.roles;
            let bits = size * of_each;
            if bits > MOST_BITS {
                continue;
            }
            for ((individuals, connections), holds) in self.compare(engine, &ground, size, bits) {
                let drawing = Drawing {
                    individuals,
                    connections,
                };
                let drawn = drawing.interpretation(ground.counts);
                assert_eq!(holds, drawn.satisfies(&written), "{hex}: {drawing:?}");
                self.models += u64::from(holds);
            }
        }
    }
}

impl fmt::Display for Every {
    fn fmt(&self, f: &mut fmt::Formatter<'_>) -> fmt::Result {
        write!(f, "{}; {} models", self.tally, self.models)
    }
}

/// Every plant of one to three individuals of sixteen sheets, of one or two where
/// there are two roles.
///
/// # Panics
///
/// Where engine and reference differ, or what holds is not what are models.
pub fn few_individuals(engine: &impl Checking) -> Every {
    let mut every = Every::default();
    let judged = JUDGED.into_iter().map(|(hex, ..)| hex);
    for hex in judged.chain(WITH_FRESH) {
        every.sheet(engine, hex);
    }
    assert!(every.tally.comparisons >= 120_000, "{every}");
    assert!(every.models >= 10_000, "{every}");
    every
}
