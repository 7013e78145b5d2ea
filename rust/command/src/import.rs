//! The sheet of an OWL text, as hex text.

use crate::arguments::Import;
use crate::hex::pairs;
use crate::json::Object;
use crate::sheet::{trouble, Sheet};
use crate::status::Status;
use crate::tree::trees;
use lodhrussi::records::records;
use std::io::{self, Write};

/// Writes the sheet of a text, a record a line, each with what it stands for in
/// a comment.
///
/// # Errors
///
/// Standard output cannot be written.
pub fn run(options: &Import, out: &mut dyn Write) -> io::Result<Status> {
    let Import { file, json, names } = options;
    let sheet = match Sheet::read_text(file, names.as_deref(), *json) {
        Ok(sheet) => sheet,
        Err(sentence) => return trouble(file, &sentence, *json, out),
    };
    match sheet.sheet() {
        Ok(bytes) if sheet.json => writeln!(out, "{}", object(&sheet, bytes))?,
        Ok(bytes) => out.write_all(lines(&sheet, bytes).as_bytes())?,
        Err(refusal) => return sheet.tell_refused(&refusal, out),
    }
    Ok(Status::Answered)
}

fn lines(sheet: &Sheet, bytes: &[u8]) -> String {
    let mut lines = String::new();
    for (record, tree) in records(bytes).zip(trees(bytes)) {
        let (hex, number) = (pairs(record.bytes()), record.number);
        let stands_for = tree.text(&sheet.names);
        lines += &format!("{hex:11}# {number}  {stands_for}\n");
    }
    lines
}

fn object(sheet: &Sheet, bytes: &[u8]) -> Object {
    let object = sheet.object("imported");
    let object = object.number("bytes", bytes.len() as u64);
    object.text("sheet", &pairs(bytes.iter().copied()))
}
