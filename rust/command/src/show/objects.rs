//! A sheet for programs.

use super::{nots, Listing, Row, MOST_BYTES};
use crate::json::Object;
use crate::parts::Part;
use crate::sheet::Sheet;
use crate::summary;
use lodhrussi::records::Record;
use lodhrussi::Counts;

impl Listing<'_> {
    /// The records, the rules, the counts and the parts.
    pub(super) fn object(&self, counts: Counts, parts: &[Part]) -> Object {
        let parts = (0..).zip(parts);
        let parts = parts.map(|(number, part)| part_object(number, part, self.sheet));
        let object = self.with_records(self.sheet.object("shown"));
        let object = object.texts("rules", self.rules());
        summary::put(counts, object).objects("mark_list", parts)
    }

    /// An object with the records put in, and the sheet's length if it is known.
    pub(super) fn with_records(&self, object: Object) -> Object {
        let rows = self.rows.iter().map(|row| row.object(self.sheet));
        let object = match self.sheet.bytes.len() {
            length if length > MOST_BYTES => object,
            length => object.number("bytes", length as u64),
        };
        object.objects("records", rows)
    }
}

impl Row<'_> {
    fn object(&self, sheet: &Sheet) -> Object {
        let Record { number, start, .. } = self.record;
        let object = Object::default()
            .number("record", number as u64)
            .number("byte", start as u64)
            .text("bytes", &self.hex())
            .text("kind", self.record.words());
        let object = match self.text(sheet) {
            Some(text) => object.text("text", &text),
            None => object,
        };
        match self.used {
            Some(used) => object.truth("used", used),
            None => object,
        }
    }
}

fn part_object(number: u64, part: &Part, sheet: &Sheet) -> Object {
    let object = Object::default()
        .number("mark", number)
        .text("kind", part.kind.words());
    let object = match part.record() {
        Some(record) => object.number("record", record.into()),
        None => object.number("trait", part.number.into()),
    };
    let object = match nots(part) {
        Some(nots) => object.text("nots", nots),
        None => object,
    };
    object.text("text", &part.tree.text(&sheet.names))
}
