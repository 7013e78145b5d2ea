//! Checks a drawn plant against a sheet.

mod objects;
mod text;

#[cfg(test)]
mod tests;

use crate::arguments::Check;
use crate::evaluation::{broken_axioms, broken_inclusions, misdrawn, Misdrawn};
use crate::members::{members, roles, Member};
use crate::parts::{parts, Part};
use crate::plant::{fault, Plant};
use crate::say::say_all;
use crate::sheet::{trouble, Sheet};
use crate::source::Source;
use crate::status::Status;
use crate::tree::{trees, Tree};
use lodhrussi::{words_needed, Counts, PlantCheck, Refusal};
use std::io::{self, Write};
use std::rc::Rc;

/// Checks a plant.
///
/// # Errors
///
/// Standard output cannot be written.
pub fn run(options: &Check, out: &mut dyn Write) -> io::Result<Status> {
    let json = options.json;
    let sheet = match Sheet::read(&options.sheet, options.names.as_deref(), json) {
        Ok(sheet) => sheet,
        Err(sentence) => return trouble(&options.sheet, &sentence, json, out),
    };
    match Source::read_plant(&options.plant) {
        Ok(plant) => {
            say_all(&plant.notes);
            check(&sheet, &plant, out)
        }
        Err(sentence) => trouble(&options.plant, &sentence, json, out),
    }
}

fn check(sheet: &Sheet, plant: &Source, out: &mut dyn Write) -> io::Result<Status> {
    let checked = match Checked::of(sheet, plant) {
        Ok(checked) => checked,
        Err(refusal) => return tell_refused(sheet, plant, &refusal, out),
    };
    match sheet.json {
        true => writeln!(out, "{}", checked.object())?,
        false => write!(out, "{}", checked.text())?,
    }
    Ok(match checked.found {
        PlantCheck::Holds => Status::Answered,
        PlantCheck::Item(_) | PlantCheck::Pair(..) => Status::Unmet,
    })
}

/// Tells a refusal, and what is refused.
fn tell_refused(
    sheet: &Sheet,
    plant: &Source,
    refusal: &Refusal,
    out: &mut dyn Write,
) -> io::Result<Status> {
    let is_of_plant = matches!(refusal.number, 22..=25);
    if sheet.json {
        let refused = ["sheet", "plant"][usize::from(is_of_plant)];
        let object = sheet.refused(refusal).text("plant", &plant.name);
        writeln!(out, "{}", object.text("refused", refused))?;
    } else if is_of_plant {
        write!(out, "{}", plant_picture(sheet, plant, refusal))?;
    } else {
        write!(out, "sheet {}", sheet.picture(refusal))?;
    }
    Ok(Status::Refused)
}

/// A plant's refusal for people: its sentence, and the record at fault. Ends with
/// a line feed.
fn plant_picture(sheet: &Sheet, plant: &Source, refusal: &Refusal) -> String {
    let number = refusal.number;
    let drawing = lodhrussi::read(&sheet.bytes).and_then(|counts| {
        let of = fault::Of {
            parts: &parts(&sheet.bytes, counts)?,
            links: counts.links,
            names: &sheet.names,
        };
        Ok(fault::drawing(&plant.bytes, number, of).unwrap_or_default())
    });
    format!(
        "plant {}: refused {number}\n{}\n{}",
        plant.name,
        refusal.explain(&sheet.bytes),
        drawing.unwrap_or_default()
    )
}

/// A plant and what checking it found.
struct Checked<'a> {
    sheet: &'a Sheet,
    /// The plant's file as it is told to people.
    file: &'a str,
    counts: Counts,
    /// Of the sheet's records.
    trees: Vec<Rc<Tree>>,
    parts: Vec<Part>,
    plant: Plant,
    /// How many different dominoes (document 01: pairings) it has.
    pairings: u64,
    found: PlantCheck,
}

impl<'a> Checked<'a> {
    fn of(sheet: &'a Sheet, plant: &'a Source) -> Result<Self, Refusal> {
        let bytes = sheet.sheet()?;
        let counts = lodhrussi::read(bytes)?;
        let mut set = vec![0; words_needed(counts)];
        let found = lodhrussi::check_plant(bytes, &plant.bytes, &mut set)?;
        Ok(Checked {
            sheet,
            file: &plant.name,
            counts,
            trees: trees(bytes),
            parts: parts(bytes, counts)?,
            plant: Plant::of(&plant.bytes),
            pairings: set.iter().map(|word| u64::from(word.count_ones())).sum(),
            found,
        })
    }

    /// The names of an item.
    fn traits(&self, item: usize) -> Vec<Member> {
        let bits = self.plant.bits_below(self.counts.traits, item);
        members(bits, &|bit| self.sheet.names.name(bit))
    }

    /// The roles from one item to another.
    fn links(&self, from: usize, to: usize) -> Vec<Member> {
        roles(self.plant.roles(from, to).into(), &self.sheet.names)
    }

    /// The axioms as written that an item breaks.
    fn rules(&self, item: usize) -> Vec<Rule> {
        self.told(&broken_axioms(&self.trees, &self.plant, item))
    }

    /// The role inclusions as written that a pair of items breaks.
    fn link_rules(&self, from: usize, to: usize) -> Vec<Rule> {
        self.told(&broken_inclusions(&self.trees, self.plant.roles(from, to)))
    }

    fn told(&self, records: &[usize]) -> Vec<Rule> {
        let told = |&record: &usize| Rule {
            record,
            text: self.trees[record].text(&self.sheet.names),
        };
        records.iter().map(told).collect()
    }

    /// The fresh names by whose drawing alone an item breaks something.
    fn fresh(&self, item: usize) -> Vec<Misdrawn> {
        misdrawn(&self.parts, &self.plant, item)
    }

    /// What a part stands for.
    fn mark(&self, mark: usize) -> String {
        self.parts[mark].tree.text(&self.sheet.names)
    }
}

/// An axiom or a role inclusion of the sheet as written.
struct Rule {
    record: usize,
    text: String,
}
