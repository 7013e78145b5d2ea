//! A sheet with its names, for a question about it alone.

use crate::json::Object;
use crate::names::Names;
use crate::picture::picture;
use crate::say::{say, say_all};
use crate::source::{self, Source};
use crate::status::Status;
use lodhrussi::Refusal;
use std::ffi::OsStr;
use std::io::{self, Write};

/// A sheet, its names, and how answers about it are printed.
pub struct Sheet {
    /// The file as it is told to people.
    pub file: String,
    /// The sheet, or an OWL text that is refused.
    pub bytes: Vec<u8>,
    pub refusal: Option<Refusal>,
    pub names: Names,
    pub json: bool,
}

impl Sheet {
    /// Reads a sheet and its names; says what is to be said of the file.
    ///
    /// # Errors
    ///
    /// A sentence about a file.
    pub fn read(file: &OsStr, names: Option<&OsStr>, json: bool) -> Result<Sheet, String> {
        Self::of(Source::read(file)?, file, names, json)
    }

    /// Reads the sheet of an OWL text, whatever it begins with, and its names.
    ///
    /// # Errors
    ///
    /// A sentence about a file.
    pub fn read_text(file: &OsStr, names: Option<&OsStr>, json: bool) -> Result<Sheet, String> {
        Self::of(Source::read_text(file)?, file, names, json)
    }

    fn of(
        source: Source,
        file: &OsStr,
        names: Option<&OsStr>,
        json: bool,
    ) -> Result<Sheet, String> {
        let names = Names::for_sheet(names, file)?;
        say_all(&source.notes);
        Ok(Sheet {
            file: source.name,
            bytes: source.bytes,
            refusal: source.refusal,
            names,
            json,
        })
    }

    /// A sheet of hex text and the text of its names.
    #[cfg(test)]
    pub fn of_hex(hex: &str, names: &str, json: bool) -> Sheet {
        Sheet {
            file: "sheet.hex".into(),
            bytes: comparison::worked::from_hex(hex),
            refusal: None,
            names: Names::parse(names).expect("names"),
            json,
        }
    }

    /// The sheet's bytes.
    ///
    /// # Errors
    ///
    /// The refusal of an OWL text.
    pub fn sheet(&self) -> Result<&[u8], Refusal> {
        self.refusal.map_or(Ok(&self.bytes), Err)
    }

    /// An object about the sheet.
    #[must_use]
    pub fn object(&self, answer: &str) -> Object {
        about(&self.file, answer)
    }

    /// An object that tells a refusal.
    #[must_use]
    pub fn refused(&self, refusal: &Refusal) -> Object {
        refused(&self.file, &self.bytes, refusal)
    }

    /// A refusal for people.
    #[must_use]
    pub fn picture(&self, refusal: &Refusal) -> String {
        picture(&self.file, &self.bytes, refusal, &self.names)
    }

    /// Tells a refusal.
    ///
    /// # Errors
    ///
    /// Standard output cannot be written.
    pub fn tell_refused(&self, refusal: &Refusal, out: &mut dyn Write) -> io::Result<Status> {
        if self.json {
            writeln!(out, "{}", self.refused(refusal))?;
        } else {
            write!(out, "{}", self.picture(refusal))?;
        }
        Ok(Status::Refused)
    }
}

/// An object about a file's sheet.
#[must_use]
pub fn about(file: &str, answer: &str) -> Object {
    Object::default().text("file", file).text("answer", answer)
}

/// An object that tells the refusal of a file's sheet.
#[must_use]
pub fn refused(file: &str, sheet: &[u8], refusal: &Refusal) -> Object {
    about(file, "refused")
        .number("number", refusal.number)
        .number("place", refusal.place)
        .text("sentence", &refusal.explain(sheet))
}

/// Tells that a file cannot be had.
///
/// # Errors
///
/// Standard output cannot be written.
pub fn trouble(
    file: &OsStr,
    sentence: &str,
    json: bool,
    out: &mut dyn Write,
) -> io::Result<Status> {
    if json {
        let object = about(&source::name(file), "trouble").text("sentence", sentence);
        writeln!(out, "{object}")?;
    }
    say(sentence);
    Ok(Status::Trouble)
}
