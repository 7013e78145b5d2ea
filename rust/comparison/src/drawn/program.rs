//! A program for the product's place, with a slip or with none.

use super::layers::{Layers, INDIVIDUAL};
use super::slips::Slip;
use crate::{inclusions, Checking, Judging, Planting, Reference};
use reference::flat::flatten;
use reference::output::put;
use reference::{judge, open, read, Judgement, PlantCheck, Refusal, Strike};
use std::cell::RefCell;
use std::rc::Rc;

/// A program with a slip, or with none.
pub struct Program {
    slip: Option<Slip>,
    /// What it made of the last sheet.
    last: RefCell<Option<Rc<Made>>>,
}

/// What a program makes of a sheet.
struct Made {
    sheet: Vec<u8>,
    /// The words that are left.
    judged: Vec<u64>,
    /// The plant, or 26 or 27.
    plant: Result<Vec<u8>, Refusal>,
}

impl Program {
    #[must_use]
    pub fn with(slip: Option<Slip>) -> Self {
        Program {
            slip,
            last: RefCell::default(),
        }
    }

    fn has(&self, slip: Slip) -> bool {
        self.slip == Some(slip)
    }

    fn made(&self, sheet: &[u8]) -> Result<Rc<Made>, Refusal> {
        let mut last = self.last.borrow_mut();
        if let Some(made) = last.as_ref().filter(|made| made.sheet == sheet) {
            return Ok(Rc::clone(made));
        }
        let judged = self.judged(sheet)?;
        let made = Rc::new(Made {
            sheet: sheet.to_vec(),
            plant: self.plant(sheet, &judged),
            judged,
        });
        *last = Some(Rc::clone(&made));
        Ok(made)
    }

    fn judged(&self, sheet: &[u8]) -> Result<Vec<u64>, Refusal> {
        let mut set = vec![0; read(sheet)?.shape().words()];
        match self.slip {
            Some(Slip::OnlyOpened) => drop(open(sheet, &mut set)?),
            Some(Slip::WithoutInclusions) => drop(judge(&inclusions::without(sheet), &mut set)?),
            _ => drop(judge(sheet, &mut set)?),
        }
        Ok(set)
    }

    fn plant(&self, sheet: &[u8], judged: &[u64]) -> Result<Vec<u8>, Refusal> {
        let survivors = judged.iter().map(|word| u64::from(word.count_ones())).sum();
        let most = match self.slip {
            Some(Slip::Draws342) => 342,
            Some(Slip::Refuses341) => 340,
            _ => super::MOST,
        };
        match survivors {
            0 if self.has(Slip::UnmetIsEmpty) => Ok(Vec::new()),
            0 => Err(refusal(26)),
            many if many > most && self.has(Slip::SurvivorsForPlace) => Err(Refusal {
                place: many,
                ..refusal(27)
            }),
            many if many > most => Err(refusal(27)),
            _ => Ok(Layers::of(self.slip, flatten(sheet)?, judged).bytes()),
        }
    }

    /// Writes a plant.
    fn write(&self, plant: &[u8], out: &mut [u8]) -> Result<usize, Refusal> {
        let fits = plant.len().min(out.len());
        let individuals = plant
            .iter()
            .step_by(3)
            .take_while(|&&kind| kind == INDIVIDUAL);
        if self.has(Slip::WrittenBeforeTest) {
            out[..fits].copy_from_slice(&plant[..fits]);
        } else if self.has(Slip::IndividualsBeforeTest) {
            let fits = fits.min(3 * individuals.count());
            out[..fits].copy_from_slice(&plant[..fits]);
        } else if self.has(Slip::ExactIsShort) && plant.len() == out.len() {
            return Err(refusal(21));
        }
        let written = put(plant, out);
        if self.has(Slip::LengthForPlace) {
            let place = plant.len() as u64;
            return written.map_err(|refusal| Refusal { place, ..refusal });
        }
        written
    }

    /// Whether the set stays as it was.
    fn keeps(&self, outcome: Result<usize, Refusal>) -> bool {
        let slip = match outcome.map_err(|refusal| refusal.number) {
            Err(21) => Slip::UnjudgedWhereShort,
            Err(26) => Slip::UnjudgedWhereUnmet,
            Err(27) => Slip::UnjudgedWhereMany,
            _ => return false,
        };
        self.has(slip)
    }
}

fn refusal(number: u64) -> Refusal {
    Refusal { number, place: 0 }
}

impl Planting for Program {
    fn draw_plant(&self, sheet: &[u8], set: &mut [u64], out: &mut [u8]) -> Result<usize, Refusal> {
        if set.is_empty() && self.has(Slip::NoWordsFirst) {
            return Err(refusal(10));
        }
        let shape = read(sheet)?.shape();
        if set.len() < shape.words() {
            if self.has(Slip::ClearedWhereFewWords) {
                set.fill(0);
            }
            return Err(refusal(10));
        }
        let (words, past) = set.split_at_mut(shape.words());
        let made = self.made(sheet)?;
        let outcome = match &made.plant {
            Err(_) if out.is_empty() && self.has(Slip::NoRoomFirst) => Err(refusal(21)),
            Err(refusal) => Err(*refusal),
            Ok(plant) => self.write(plant, out),
        };
        let spare = match shape.dominoes() {
            dominoes @ ..64 if self.has(Slip::SpareBitsKept) => words[0] >> dominoes << dominoes,
            _ => 0,
        };
        if !self.keeps(outcome) {
            words.copy_from_slice(&made.judged);
            words[0] |= spare;
        }
        if self.has(Slip::WordsPastCleared) {
            past.fill(0);
        }
        match outcome {
            Err(Refusal { number: 27, .. }) if self.has(Slip::ClearedWhereMany) => words.fill(0),
            Err(Refusal { number: 27, .. }) if self.has(Slip::OutClearedWhereMany) => out.fill(0),
            Ok(length) if self.has(Slip::BytesPastCleared) => out[length..].fill(0),
            _ => {}
        }
        outcome
    }
}

impl Checking for Program {
    fn check_plant(
        &self,
        sheet: &[u8],
        plant: &[u8],
        set: &mut [u64],
    ) -> Result<PlantCheck, Refusal> {
        Reference.check_plant(sheet, plant, set)
    }
}

impl Judging for Program {
    fn open(&self, sheet: &[u8], set: &mut [u64]) -> Result<u64, Refusal> {
        Reference.open(sheet, set)
    }

    fn strike(&self, sheet: &[u8], set: &mut [u64], number: u64) -> Result<Strike, Refusal> {
        Reference.strike(sheet, set, number)
    }

    fn settle(&self, sheet: &[u8], set: &mut [u64]) -> Result<u64, Refusal> {
        Reference.settle(sheet, set)
    }

    fn judge(&self, sheet: &[u8], set: &mut [u64]) -> Result<Judgement, Refusal> {
        Reference.judge(sheet, set)
    }
}
