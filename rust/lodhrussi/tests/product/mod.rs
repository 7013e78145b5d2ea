//! The library as the suites take what they compare.

use comparison::{Checking, Judging, Planting, Reading, Translating};
use lodhrussi::Call;
use reference::{Counts, Judgement, PlantCheck, Refusal, Strike, Verdict};

pub struct Product;

/// The reference's form of a refusal of that call.
pub fn refused(call: Call) -> impl Fn(lodhrussi::Refusal) -> Refusal {
    move |refusal| {
        assert_eq!(refusal.call, call);
        Refusal {
            number: refusal.number,
            place: refusal.place,
        }
    }
}

fn verdict(verdict: lodhrussi::Verdict) -> Verdict {
    match verdict {
        lodhrussi::Verdict::Absent => Verdict::Absent,
        lodhrussi::Verdict::Struck { condition } => Verdict::Struck {
            condition: condition.number() as u8,
        },
        lodhrussi::Verdict::Kept => Verdict::Kept,
    }
}

impl Reading for Product {
    fn read(&self, sheet: &[u8]) -> Result<Counts, Refusal> {
        let counts = lodhrussi::read(sheet).map_err(refused(Call::Read))?;
        Ok(Counts {
            traits: counts.traits,
            fresh: counts.fresh,
            some: counts.some,
            only: counts.only,
            links: counts.links,
        })
    }

    fn list_marks(&self, sheet: &[u8], list: &mut [u8]) -> Result<(), Refusal> {
        lodhrussi::list_marks(sheet, list).map_err(refused(Call::ListMarks))
    }
}

impl Judging for Product {
    fn open(&self, sheet: &[u8], set: &mut [u64]) -> Result<u64, Refusal> {
        lodhrussi::open(sheet, set).map_err(refused(Call::Open))
    }

    fn strike(&self, sheet: &[u8], set: &mut [u64], number: u64) -> Result<Strike, Refusal> {
        let strike = lodhrussi::strike(sheet, set, number).map_err(refused(Call::Strike))?;
        Ok(Strike {
            number: strike.number,
            verdict: verdict(strike.verdict),
        })
    }

    fn settle(&self, sheet: &[u8], set: &mut [u64]) -> Result<u64, Refusal> {
        lodhrussi::settle(sheet, set).map_err(refused(Call::Settle))
    }

    fn judge(&self, sheet: &[u8], set: &mut [u64]) -> Result<Judgement, Refusal> {
        let judgement = lodhrussi::judge(sheet, set).map_err(refused(Call::Judge))?;
        Ok(Judgement {
            opening: judgement.opening,
            survivors: judgement.survivors,
            met: judgement.met,
        })
    }
}

impl Translating for Product {
    fn import(&self, text: &[u8], out: &mut [u8]) -> Result<usize, Refusal> {
        lodhrussi::import(text, out).map_err(refused(Call::Import))
    }

    fn export(&self, sheet: &[u8], out: &mut [u8]) -> Result<usize, Refusal> {
        lodhrussi::export(sheet, out).map_err(refused(Call::Export))
    }
}

impl Checking for Product {
    fn check_plant(
        &self,
        sheet: &[u8],
        plant: &[u8],
        set: &mut [u64],
    ) -> Result<PlantCheck, Refusal> {
        let check = lodhrussi::check_plant(sheet, plant, set);
        Ok(match check.map_err(refused(Call::CheckPlant))? {
            lodhrussi::PlantCheck::Holds => PlantCheck::Holds,
            lodhrussi::PlantCheck::Item(item) => PlantCheck::Item(item),
            lodhrussi::PlantCheck::Pair(from, to) => PlantCheck::Pair(from, to),
        })
    }
}

impl Planting for Product {
    fn draw_plant(&self, sheet: &[u8], set: &mut [u64], out: &mut [u8]) -> Result<usize, Refusal> {
        lodhrussi::draw_plant(sheet, set, out).map_err(refused(Call::DrawPlant))
    }
}
