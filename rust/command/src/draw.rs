//! Draws a plant that keeps a sheet.

mod dot;
mod objects;
mod records;
mod svg;
mod text;

#[cfg(test)]
mod tests;

use crate::arguments::{Draw, Drawing};
use crate::members::{members, Member};
use crate::parts::{parts, Part};
use crate::plant::{records, Kind, Plant};
use crate::sheet::{trouble, Sheet};
use crate::status::Status;
use lodhrussi::{words_needed, Counts, Refusal};
use std::ffi::OsStr;
use std::io::{self, Write};

/// Draws a plant.
///
/// # Errors
///
/// Standard output cannot be written.
pub fn run(options: &Draw, out: &mut dyn Write) -> io::Result<Status> {
    let Draw { file, form, names } = options;
    let json = *form == Drawing::Json;
    match Sheet::read(file, names.as_deref(), json) {
        Ok(sheet) => draw(&sheet, form, out),
        Err(sentence) => trouble(file, &sentence, json, out),
    }
}

fn draw(sheet: &Sheet, form: &Drawing, out: &mut dyn Write) -> io::Result<Status> {
    let drawn = match Drawn::of(sheet) {
        Ok(drawn) => drawn,
        Err(refusal) => return tell_refused(sheet, &refusal, out),
    };
    match form {
        Drawing::Table => out.write_all(drawn.text().as_bytes())?,
        Drawing::Records => out.write_all(drawn.records().as_bytes())?,
        Drawing::Dot => out.write_all(drawn.dot().as_bytes())?,
        Drawing::Json => writeln!(out, "{}", drawn.object())?,
        Drawing::Svg(file) => match drawn.picture(file) {
            Ok(told) => out.write_all(&told)?,
            Err(sentence) => return trouble(file, &sentence, sheet.json, out),
        },
    }
    Ok(Status::Answered)
}

/// The refusal of a sheet that cannot be met.
const NO_SURVIVORS: u64 = 26;

/// What is said of such a sheet.
const NONE: &str = "No finite plant of at least one item keeps all rules of this sheet, so there \
                    is none to draw.";

/// Tells a refusal, or that the sheet cannot be met.
fn tell_refused(sheet: &Sheet, refusal: &Refusal, out: &mut dyn Write) -> io::Result<Status> {
    if refusal.number != NO_SURVIVORS {
        return sheet.tell_refused(refusal, out);
    }
    match sheet.json {
        true => writeln!(out, "{}", sheet.object("unmet").text("sentence", NONE))?,
        false => writeln!(out, "cannot be met\n{NONE}")?,
    }
    Ok(Status::Unmet)
}

/// The layers of a plant. Each has an item for each survivor.
const LAYERS: usize = 3;

/// A sheet and the plant that is drawn for it.
struct Drawn<'a> {
    sheet: &'a Sheet,
    counts: Counts,
    parts: Vec<Part>,
    bytes: Vec<u8>,
    plant: Plant,
    /// The dominoes (document 01: pairings) of the canonical set, by their
    /// numbers.
    survivors: Vec<u64>,
}

impl<'a> Drawn<'a> {
    fn of(sheet: &'a Sheet) -> Result<Self, Refusal> {
        let bytes = sheet.sheet()?;
        let counts = lodhrussi::read(bytes)?;
        let mut set = vec![0; words_needed(counts)];
        let plant = lodhrussi::drawn_plant(bytes, &mut set)?;
        Ok(Drawn {
            sheet,
            counts,
            parts: parts(bytes, counts)?,
            plant: Plant::of(&plant),
            bytes: plant,
            survivors: numbers(&set),
        })
    }

    /// How many items a layer has.
    fn layer(&self) -> usize {
        self.survivors.len()
    }

    /// The connections, in the order of their records: items and role.
    fn connections(&self) -> impl Iterator<Item = ([usize; 2], u8)> + '_ {
        let records = records(&self.bytes);
        let of_kind = records.filter(|record| record.kind == Some(Kind::Connection));
        of_kind.map(|record| (record.ends(), record.role()))
    }

    fn items(&self) -> impl Iterator<Item = Item> + '_ {
        (0..self.plant.len()).map(|number| self.item(number))
    }

    fn item(&self, number: usize) -> Item {
        let part = |bit: u8| self.parts[usize::from(bit)].tree.text(&self.sheet.names);
        let bits = self.plant.bits_below(self.counts.marks(), number);
        let names = self.plant.bits_below(self.counts.traits, number);
        let survivor = number % self.layer();
        Item {
            number,
            layer: number / self.layer(),
            survivor,
            pairing: self.survivors[survivor],
            traits: members(names, &part),
            fresh: members(bits & !names, &part),
        }
    }

    /// Puts a picture into a file; answers what is to be told, which is the picture
    /// itself for standard output. The error is a clause.
    fn picture(&self, file: &OsStr) -> Result<Vec<u8>, String> {
        let picture = svg::drawn(&self.dot())?;
        if file == "-" {
            return Ok(picture);
        }
        svg::save(file, &picture)?;
        Ok(self.saved(file).into())
    }
}

/// An item of a drawn plant.
struct Item {
    number: usize,
    layer: usize,
    /// Its survivor's place among all.
    survivor: usize,
    /// Its survivor's number.
    pairing: u64,
    traits: Vec<Member>,
    fresh: Vec<Member>,
}

/// The numbers in a set of words.
fn numbers(set: &[u64]) -> Vec<u64> {
    let mut numbers = Vec::new();
    for (first, &word) in (0..).step_by(64).zip(set) {
        let mut left = word;
        while left != 0 {
            numbers.push(first + u64::from(left.trailing_zeros()));
            left &= left - 1;
        }
    }
    numbers
}
