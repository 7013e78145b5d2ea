//! Plants drawn for one sheet, some of them put together of those that were
//! checked.

use super::made_up::{any, layers, nudged, of_survivors, with_fillers};
use super::{Drawing, Ground, MOST};
use crate::random::Random;
use reference::{PlantCheck, Refusal};

/// The most individuals of a plant that is kept, of one of which some break an
/// axiom, and of layers among small plants.
const KEPT: usize = 8;
const BREAKING: usize = 3;
const LAYERED: usize = 24;

/// How plants that are put together stand.
#[derive(Clone, Copy)]
pub enum Order {
    Any,
    /// What breaks something last.
    BreakingLast,
}

/// Plants that were checked, by what was said.
#[derive(Default)]
pub struct Pool {
    pub holding: Vec<Drawing>,
    /// Those of which a pair alone breaks something.
    pub of_pairs: Vec<Drawing>,
    pub of_individuals: Vec<Drawing>,
}

impl Pool {
    /// How many sorts of small plants there are.
    pub const SORTS: usize = 12;

    /// Keeps a plant that was checked, if it is small.
    pub fn keep(&mut self, drawing: Drawing, outcome: Result<PlantCheck, Refusal>) {
        if drawing.len() > KEPT {
            return;
        }
        match outcome {
            Ok(PlantCheck::Holds) => self.holding.push(drawing),
            Ok(PlantCheck::Pair(..)) => self.of_pairs.push(drawing),
            Ok(PlantCheck::Item(_)) if drawing.len() <= BREAKING => {
                self.of_individuals.push(drawing);
            }
            _ => {}
        }
    }

    /// A plant of one of the sorts, or any where there is none of that sort.
    pub fn small(&self, sort: usize, ground: &Ground, random: &mut Random) -> Drawing {
        let (survivors, without) = (&ground.survivors, &ground.without_inclusions);
        let size = 2 + random.below(6);
        let drawing = match sort {
            0 => None,
            1 => Some(with_fillers(ground, any(ground, 6, random))),
            2 => of_survivors(ground, survivors, size, random),
            3 | 4 if !without.labels.is_empty() => of_survivors(ground, without, size, random),
            3 | 4 => of_survivors(ground, survivors, size, random),
            5 => self.nudged(ground, 0, random),
            6 | 7 => self.nudged(ground, KEPT, random),
            8 => self.beside(&self.holding, KEPT, Order::Any, random),
            9 => self.beside(&self.of_pairs, KEPT, Order::Any, random),
            10 => self.beside(&self.of_individuals, KEPT, Order::Any, random),
            _ => small_layers(ground, random),
        };
        drawing.unwrap_or_else(|| any(ground, 6, random))
    }

    /// A plant that holds, of at least so many individuals, with one to three
    /// things changed.
    pub fn nudged(&self, ground: &Ground, size: usize, random: &mut Random) -> Option<Drawing> {
        let mut drawing = self.beside(&self.holding, size, Order::Any, random)?;
        for _ in 0..1 + random.below(3) {
            drawing = nudged(ground, drawing, random);
        }
        Some(drawing)
    }

    /// One or two of some plants and as many that hold as make `size` individuals
    /// or a few more.
    pub fn beside(
        &self,
        some: &[Drawing],
        size: usize,
        order: Order,
        random: &mut Random,
    ) -> Option<Drawing> {
        let mut breaking = one_of(some, random)?;
        if random.one_in(2) {
            breaking.put_beside(&one_of(some, random)?);
        }
        let mut drawing = Drawing::default();
        while drawing.len() + breaking.len() < size && !self.holding.is_empty() {
            drawing.put_beside(&one_of(&self.holding, random)?);
        }
        drawing.put_beside(&breaking);
        Some(match order {
            Order::Any => drawing.renumbered(random),
            Order::BreakingLast => drawing,
        })
    }

    /// As many that hold, and one of some plants, as there is room for.
    pub fn full(&self, some: &[Drawing], random: &mut Random) -> Option<Drawing> {
        let mut drawing = one_of(some, random)?;
        loop {
            let room = MOST - drawing.len();
            let fits = self.holding.iter().filter(|more| more.len() <= room);
            let fits: Vec<_> = fits.collect();
            if room == 0 || fits.is_empty() {
                return Some(drawing.renumbered(random));
            }
            drawing.put_beside(random.pick(&fits));
        }
    }
}

fn one_of(drawings: &[Drawing], random: &mut Random) -> Option<Drawing> {
    (!drawings.is_empty()).then(|| drawings[random.below(drawings.len())].clone())
}

fn small_layers(ground: &Ground, random: &mut Random) -> Option<Drawing> {
    let dominoes = &ground.survivors.dominoes;
    let few = !dominoes.is_empty() && 3 * dominoes.len() <= LAYERED;
    few.then(|| layers(ground, dominoes).renumbered(random))
}
