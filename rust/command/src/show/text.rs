//! A sheet for people.

use super::{nots, Listing, Row, MOST_BYTES};
use crate::count::count;
use crate::parts::Part;
use crate::sheet::Sheet;
use crate::summary;
use lodhrussi::records::Record;
use lodhrussi::Counts;

impl Listing<'_> {
    /// The records, the rules, the counts and the parts.
    pub(super) fn text(&self, counts: Counts, parts: &[Part]) -> String {
        let rules: Vec<_> = self.rules().collect();
        let rules = match &rules[..] {
            [] => "no rules\n".into(),
            rules => format!("rules\n  {}\n", rules.join("\n  ")),
        };
        format!(
            "{}\n{rules}\n{}\n{}",
            self.records_text(),
            summary::phrase(counts),
            parts_text(parts, self.sheet)
        )
    }

    /// How long the sheet is, and its records as a table.
    pub(super) fn records_text(&self) -> String {
        let mut text = format!("{}: {}\n", self.sheet.file, self.size());
        if !self.rows.is_empty() {
            text.push_str("record  byte  bytes     kind            stands for\n");
        }
        for row in &self.rows {
            text.push_str(&row.line(self.sheet));
        }
        text
    }

    /// How many bytes and records.
    fn size(&self) -> String {
        let bytes = match self.sheet.bytes.len() {
            length if length > MOST_BYTES => format!("more than {MOST_BYTES} bytes"),
            length => count(length as u64, "byte"),
        };
        let sound = self.rows.iter().filter(|row| row.tree.is_some()).count();
        let records = count(sound as u64, "record");
        match sound < self.rows.len() {
            true => format!("{bytes}, {records} before the fault"),
            false => format!("{bytes}, {records}"),
        }
    }
}

impl Row<'_> {
    fn line(&self, sheet: &Sheet) -> String {
        let Record { number, start, .. } = self.record;
        let (hex, kind) = (self.hex(), self.record.words());
        let stands_for = self.text(sheet).unwrap_or("(at fault)".into());
        let unused = match self.used {
            Some(false) => " (unused)",
            _ => "",
        };
        format!("{number:6}  {start:4}  {hex:8}  {kind:14}  {stands_for}{unused}\n")
    }
}

/// The parts as a table.
fn parts_text(parts: &[Part], sheet: &Sheet) -> String {
    let mut text = String::new();
    if !parts.is_empty() {
        text.push_str("mark  kind   record  nots  stands for\n");
    }
    for (number, part) in parts.iter().enumerate() {
        let (kind, record) = (part.kind.words(), part.record());
        let record = record.map_or("-".into(), |record| record.to_string());
        let nots = nots(part).unwrap_or("-");
        let stands_for = part.tree.text(&sheet.names);
        let line = format!("{number:4}  {kind:5}  {record:>6}  {nots:4}  {stands_for}\n");
        text.push_str(&line);
    }
    text
}
