//! Plants against 002's Table 1 on axioms and role inclusions as written, and
//! against judging.

use super::made_up::{any, layers, with_fillers};
use super::{sheet, Drawing, Ground, Pool};
use crate::hex::Hex;
use crate::random::Random;
use crate::suites::times;
use crate::{Checking, Judging};
use reference::domino::insert;
use reference::plant;
use reference::written::Written;
use reference::{PlantCheck, Refusal};
use std::fmt;

/// What parts and roles come to at most.
const MOST: usize = 7;

/// The most individuals in layers.
const LAYERED: usize = 100;

/// How many results were compared, and of which sort.
#[derive(Default)]
pub struct Tally {
    pub comparisons: u64,
    pub sheets: u64,
    /// Plants that hold, and the survivors of the sheets that are theirs.
    pub holding: u64,
    pub survivors: u64,
    /// Plants of which something breaks; of these the models, where a fresh name
    /// as drawn is what breaks.
    pub breaking: u64,
    pub models: u64,
    /// Plants whose fresh names are as their fillers: those that are models, those
    /// of which an individual breaks an axiom, and a pair alone an inclusion.
    pub own_models: u64,
    pub own_individuals: u64,
    pub own_pairs: u64,
    /// Layers of all survivors.
    pub layers: u64,
}

/// A sheet as it is written, and its judged set.
struct Judged<'a> {
    ground: &'a Ground,
    written: Written,
    set: Vec<u64>,
}

impl<'a> Judged<'a> {
    fn of(engine: &impl Judging, ground: &'a Ground) -> Self {
        let mut set = vec![0; ground.shape.words()];
        let judged = engine.judge(&ground.sheet, &mut set);
        judged.expect("a set long enough");
        let written = Written::read(&ground.sheet).expect("a sheet without faults");
        Judged {
            ground,
            written,
            set,
        }
    }

    /// What is said of a plant, and the words.
    fn check(
        &self,
        engine: &impl Checking,
        drawing: &Drawing,
        random: &mut Random,
    ) -> Result<(PlantCheck, Vec<u64>), Refusal> {
        let mut set = vec![u64::MAX; self.set.len()];
        let file = drawing.file(random);
        let drawn = plant::interpretation(&self.ground.sheet, &file)?;
        assert_eq!(drawn, drawing.interpretation(self.ground.counts));
        let check = engine.check_plant(&self.ground.sheet, &file, &mut set)?;
        Ok((check, set))
    }
}

impl Tally {
    /// Checks a plant. If it holds it is a model, and all its dominoes are in the
    /// judged set; if a pair breaks an inclusion, that is the first.
    fn any(
        &mut self,
        engine: &impl Checking,
        judged: &Judged<'_>,
        drawing: &Drawing,
        random: &mut Random,
    ) -> Result<PlantCheck, Refusal> {
        let what = Hex(&judged.ground.sheet);
        let (check, set) = judged.check(engine, drawing, random)?;
        let drawn = drawing.interpretation(judged.ground.counts);
        let is_model = drawn.satisfies(&judged.written);
        match check {
            PlantCheck::Holds => {
                assert!(is_model, "{what}: {drawing:?}");
                let mut words = set.iter().zip(&judged.set);
                let survive = words.all(|(word, judged)| word & !judged == 0);
                assert!(survive, "{what}: {drawing:?}");
                self.holding += 1;
                let counts = set.iter().map(|word| u64::from(word.count_ones()));
                self.survivors += counts.sum::<u64>();
            }
            PlantCheck::Item(_) => self.models += u64::from(is_model),
            PlantCheck::Pair(x, y) => {
                let first = drawn.breaking_pair(&judged.written);
                assert_eq!(first, Some((x, y)), "{what}: {drawing:?}");
            }
        }
        self.breaking += u64::from(check != PlantCheck::Holds);
        self.comparisons += 1;
        Ok(check)
    }

    /// Checks a plant whose fresh names are as their fillers. It holds precisely if
    /// it is a model, else what breaks first is what breaks an axiom or inclusion
    /// as written; its set is its dominoes.
    fn own(
        &mut self,
        engine: &impl Checking,
        judged: &Judged<'_>,
        drawing: Drawing,
        random: &mut Random,
    ) -> Result<PlantCheck, Refusal> {
        let what = Hex(&judged.ground.sheet);
        let drawing = with_fillers(judged.ground, drawing);
        let (check, set) = judged.check(engine, &drawing, random)?;
        let drawn = drawing.interpretation(judged.ground.counts);
        let individual = drawn.breaking_individual(&judged.written);
        let (expected, count) = match (individual, drawn.breaking_pair(&judged.written)) {
            (Some(x), _) => (PlantCheck::Item(x), &mut self.own_individuals),
            (None, Some((x, y))) => (PlantCheck::Pair(x, y), &mut self.own_pairs),
            (None, None) => (PlantCheck::Holds, &mut self.own_models),
        };
        *count += 1;
        assert_eq!(check, expected, "{what}: {drawing:?}");
        let mut dominoes = vec![0; set.len()];
        for domino in drawn.dominoes(&judged.ground.sheet)? {
            insert(&mut dominoes, judged.ground.shape.number(domino));
        }
        assert_eq!(set, dominoes, "{what}: {drawing:?}");
        self.comparisons += 1;
        Ok(check)
    }

    /// Layers of all survivors hold, and their dominoes are the judged set.
    fn layers(
        &mut self,
        engine: &impl Checking,
        judged: &Judged<'_>,
        random: &mut Random,
    ) -> Result<(), Refusal> {
        let survivors = &judged.ground.survivors.dominoes;
        if survivors.is_empty() || 3 * survivors.len() > LAYERED {
            return Ok(());
        }
        let drawing = layers(judged.ground, survivors);
        let (check, set) = judged.check(engine, &drawing, random)?;
        let what = Hex(&judged.ground.sheet);
        assert_eq!(check, PlantCheck::Holds, "layers of {what}");
        assert_eq!(set, judged.set, "layers of {what}");
        self.layers += 1;
        self.comparisons += 1;
        Ok(())
    }

    fn sheet(
        &mut self,
        engine: &(impl Checking + Judging),
        ground: &Ground,
        random: &mut Random,
    ) -> Result<(), Refusal> {
        let judged = Judged::of(engine, ground);
        let mut pool = Pool::default();
        for sort in 0..Pool::SORTS {
            let drawing = pool.small(sort, ground, random);
            let check = self.any(engine, &judged, &drawing, random);
            self.own(engine, &judged, drawing.clone(), random)?;
            pool.keep(drawing, check);
        }
        self.own(engine, &judged, any(ground, 4, random), random)?;
        self.layers(engine, &judged, random)?;
        self.sheets += 1;
        Ok(())
    }
}

impl fmt::Display for Tally {
    fn fmt(&self, f: &mut fmt::Formatter<'_>) -> fmt::Result {
        write!(
            f,
            "{} comparisons on {} sheets: {} plants hold, each a model, with {} dominoes that \
             survive; of {} something breaks ({} of them models); with fresh names as their \
             fillers {} are models, of {} an individual breaks an axiom, of {} a pair alone an \
             inclusion; {} are layers of all survivors",
            self.comparisons,
            self.sheets,
            self.holding,
            self.survivors,
            self.breaking,
            self.models,
            self.own_models,
            self.own_individuals,
            self.own_pairs,
            self.layers
        )
    }
}

/// Made-up plants against Table 1 and against judging.
///
/// # Panics
///
/// Where the engine answers otherwise, or a sort of plant is rare.
pub fn against_table_1(engine: &(impl Checking + Judging)) -> Tally {
    let mut random = Random::seeded(66);
    let mut tally = Tally::default();
    for turn in 0..times(2_400) as usize {
        let ground = Ground::of(sheet(turn % (MOST + 1), &mut random));
        let checked = tally.sheet(engine, &ground, &mut random);
        checked.expect("plants without faults");
    }
    assert!(tally.holding >= 4_500 && tally.breaking >= 9_000, "{tally}");
    assert!(tally.models >= 70, "{tally}");
    assert!(tally.own_models >= 5_000, "{tally}");
    assert!(tally.own_individuals >= 8_000, "{tally}");
    assert!(tally.own_pairs >= 1_500, "{tally}");
    assert!(tally.layers >= 450, "{tally}");
    tally
}
