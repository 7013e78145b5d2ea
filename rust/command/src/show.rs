//! What a sheet says.

mod objects;
mod text;

#[cfg(test)]
mod tests;

use crate::arguments::Show;
use crate::hex::pairs;
use crate::parts::{parts, Part};
use crate::picture::faulty_record;
use crate::sheet::{trouble, Sheet};
use crate::source::MOST;
use crate::status::Status;
use crate::tree::{trees, Tree};
use lodhrussi::records::{records, Record, Sort};
use lodhrussi::Refusal;
use std::io::{self, Write};
use std::rc::Rc;

/// The bytes that a sheet without faults has at most. Of a longer one no more is
/// known.
const MOST_BYTES: usize = MOST - 1;

/// Shows a sheet.
///
/// # Errors
///
/// Standard output cannot be written.
pub fn run(options: &Show, out: &mut dyn Write) -> io::Result<Status> {
    let Show { file, json, names } = options;
    match Sheet::read(file, names.as_deref(), *json) {
        Ok(sheet) => show(&sheet, out),
        Err(sentence) => trouble(file, &sentence, *json, out),
    }
}

fn show(sheet: &Sheet, out: &mut dyn Write) -> io::Result<Status> {
    if let Some(refusal) = &sheet.refusal {
        return sheet.tell_refused(refusal, out);
    }
    let bytes = &sheet.bytes;
    let read = lodhrussi::read(bytes).and_then(|counts| Ok((counts, parts(bytes, counts)?)));
    let listing = Listing::of(sheet, read.as_ref().err());
    match &read {
        Ok((counts, parts)) if sheet.json => {
            writeln!(out, "{}", listing.object(*counts, parts))?;
        }
        Ok((counts, parts)) => write!(out, "{}", listing.text(*counts, parts))?,
        Err(refusal) if sheet.json => {
            writeln!(out, "{}", listing.with_records(sheet.refused(refusal)))?;
        }
        Err(refusal) => {
            let picture = sheet.picture(refusal);
            write!(out, "{}\n{picture}", listing.records_text())?;
        }
    }
    Ok(read.map_or(Status::Refused, |_| Status::Answered))
}

/// The records of a sheet, up to one at fault.
struct Listing<'a> {
    sheet: &'a Sheet,
    rows: Vec<Row<'a>>,
}

/// A record.
struct Row<'a> {
    record: Record<'a>,
    /// None for a record at fault.
    tree: Option<Rc<Tree>>,
    /// Whether an axiom reaches it; not known before a fault.
    used: Option<bool>,
}

impl<'a> Listing<'a> {
    fn of(sheet: &'a Sheet, refusal: Option<&Refusal>) -> Self {
        let bytes = &sheet.bytes;
        let fault = refusal.and_then(|refusal| faulty_record(bytes, refusal));
        let sound = fault.map_or(bytes.len(), |record| record.start);
        let trees = trees(&bytes[..sound]).into_iter().map(Some);
        let trees = trees.chain(fault.map(|_| None));
        let used = match fault {
            Some(_) => Vec::new(),
            None => used(bytes),
        };
        let rows = records(bytes).zip(trees).map(|(record, tree)| Row {
            record,
            tree,
            used: used.get(record.number).copied(),
        });
        let rows = rows.collect();
        Listing { sheet, rows }
    }

    /// The axioms, as they are told.
    fn rules(&self) -> impl Iterator<Item = String> + '_ {
        let is_axiom = |row: &&Row<'_>| row.record.sort() == Some(Sort::Axiom);
        let axioms = self.rows.iter().filter(is_axiom);
        axioms.filter_map(|row| row.text(self.sheet))
    }
}

impl Row<'_> {
    fn hex(&self) -> String {
        pairs(self.record.bytes())
    }

    /// What it stands for.
    fn text(&self, sheet: &Sheet) -> Option<String> {
        Some(self.tree.as_ref()?.text(&sheet.names))
    }
}

/// Whether each record of a sheet without a faulty one is reached by an axiom.
fn used(sheet: &[u8]) -> Vec<bool> {
    let records: Vec<_> = records(sheet).collect();
    let is_axiom = |record: &Record<'_>| record.sort() == Some(Sort::Axiom);
    let mut used: Vec<_> = records.iter().map(is_axiom).collect();
    // a record names earlier ones
    for record in records.iter().rev() {
        if used[record.number] {
            for reference in record.references() {
                used[usize::from(reference.names)] = true;
            }
        }
    }
    used
}

/// The nots above a part's record; none for a concept name.
fn nots(part: &Part) -> Option<&'static str> {
    part.record()?;
    Some(if part.odd { "odd" } else { "even" })
}
