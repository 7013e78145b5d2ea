//! The trade's own words for the numbers of names and roles.

#[cfg(test)]
mod tests;

use crate::source::{name, unreadable};
use std::collections::BTreeMap;
use std::ffi::OsStr;
use std::fs::File;
use std::io::{self, Read};
use std::path::Path;

/// Words for concept names (document 01: traits) and roles (document 01: links).
#[derive(Clone, Debug, Default, PartialEq, Eq)]
pub struct Names {
    names: BTreeMap<u8, String>,
    roles: BTreeMap<u8, String>,
}

/// The letter and the count of the numbers of each sort.
const NAME: (char, u8) = ('t', 12);
const ROLE: (char, u8) = ('k', 4);

/// The extension of the file beside a sheet.
const EXTENSION: &str = "names";

/// The bytes that a file of names has at most.
const LIMIT: u64 = 1 << 20;

/// Words that a tree's text has of its own.
const RESERVED: [&str; 11] = [
    "everything",
    "nothing",
    "not",
    "and",
    "or",
    "some",
    "only",
    "every",
    "is",
    "reversed",
    "within",
];

impl Names {
    /// The names in `file`, or else in the file beside the sheet if it is there.
    ///
    /// # Errors
    ///
    /// A sentence about the file.
    pub fn for_sheet(file: Option<&OsStr>, sheet: &OsStr) -> Result<Names, String> {
        if let Some(file) = file {
            return Names::read(file);
        }
        let beside = Path::new(sheet).with_extension(EXTENSION);
        if sheet == "-" || beside == Path::new(sheet) || !beside.is_file() {
            return Ok(Names::default());
        }
        Names::read(beside.as_os_str())
    }

    /// The names in a file, or in standard input for `-`.
    fn read(file: &OsStr) -> Result<Names, String> {
        let name = name(file);
        let bytes = bytes(file).map_err(|error| unreadable(&name, &error))?;
        let of_file = |sentence| format!("{name}: {sentence}");
        if bytes.len() as u64 > LIMIT {
            return Err(of_file("too long for a file of names".into()));
        }
        let text = String::from_utf8(bytes).map_err(|_| of_file("no UTF-8 text".into()))?;
        Names::parse(&text).map_err(of_file)
    }

    /// The names in a text of lines such as `t0 = reheat coil` and `k0 = feeds`,
    /// with comments after `#` and blank lines.
    ///
    /// # Errors
    ///
    /// A sentence about the first line that is at fault.
    pub fn parse(text: &str) -> Result<Names, String> {
        let text = text.strip_prefix('\u{feff}').unwrap_or(text);
        let mut names = Names::default();
        for (number, line) in (1..).zip(text.lines()) {
            let line = line.split('#').next().unwrap_or_default().trim();
            if !line.is_empty() {
                let added = names.add(line);
                added.map_err(|sentence| format!("line {number}: {sentence}"))?;
            }
        }
        Ok(names)
    }

    /// Adds what a line says.
    fn add(&mut self, line: &str) -> Result<(), String> {
        let (key, word) = line
            .split_once('=')
            .ok_or("wanted is a line such as 't0 = reheat coil' or 'k0 = feeds'")?;
        let (key, word) = (key.trim_end(), word.trim_start());
        let (letter, number) = number(key).ok_or_else(|| {
            let key = key.escape_debug();
            format!("'{key}' is neither a trait (t0 to t11) nor a link (k0 to k3)")
        })?;
        if word.is_empty() {
            return Err(format!("no name for {key} after the '='"));
        }
        if word.chars().any(char::is_control) {
            return Err(format!("a control character in the name of {key}"));
        }
        let words = if letter == NAME.0 {
            &mut self.names
        } else {
            &mut self.roles
        };
        if words.contains_key(&number) {
            return Err(format!("{key} has a name already"));
        }
        if let Some((other, _)) = words.iter().find(|(_, taken)| *taken == word) {
            return Err(format!("'{word}' is the name of {letter}{other} already"));
        }
        words.insert(number, word.into());
        Ok(())
    }

    /// A concept name.
    #[must_use]
    pub fn name(&self, number: u8) -> String {
        word(&self.names, NAME.0, number)
    }

    /// A role.
    #[must_use]
    pub fn role(&self, number: u8) -> String {
        word(&self.roles, ROLE.0, number)
    }

    /// The inverse of a role.
    #[must_use]
    pub fn inverse(&self, number: u8) -> String {
        format!("{} reversed", self.role(number))
    }
}

/// The bytes of a file; of a long one no more than tells that it is too long.
fn bytes(file: &OsStr) -> io::Result<Vec<u8>> {
    let mut bytes = Vec::new();
    match file.to_str() {
        Some("-") => io::stdin().take(LIMIT + 1).read_to_end(&mut bytes)?,
        _ => File::open(file)?.take(LIMIT + 1).read_to_end(&mut bytes)?,
    };
    Ok(bytes)
}

/// The letter and the number of what is written as `t0` or `k0`.
fn number(key: &str) -> Option<(char, u8)> {
    [NAME, ROLE].into_iter().find_map(|(letter, count)| {
        let number = (0..count).find(|number| key == format!("{letter}{number}"))?;
        Some((letter, number))
    })
}

/// What a number is called: its name, if it has one.
fn word(words: &BTreeMap<u8, String>, letter: char, number: u8) -> String {
    match words.get(&number) {
        Some(word) => quoted(word),
        None => format!("{letter}{number}"),
    }
}

/// In single quotes, one in it doubled, unless it is a single word that nothing
/// else is written as.
fn quoted(word: &str) -> String {
    let is_plain = |c: char| c.is_alphanumeric() || c == '-' || c == '_';
    if word.chars().all(is_plain) && !RESERVED.contains(&word) && number(word).is_none() {
        return word.into();
    }
    format!("'{}'", word.replace('\'', "''"))
}
