//! Sheets as document 01 writes them.

use std::fmt;

/// Shows a sheet in hex.
pub struct Hex<'a>(pub &'a [u8]);

impl fmt::Display for Hex<'_> {
    fn fmt(&self, f: &mut fmt::Formatter<'_>) -> fmt::Result {
        f.write_str("sheet")?;
        self.0.iter().try_for_each(|byte| write!(f, " {byte:02X}"))
    }
}

/// The bytes of a sheet in hex.
///
/// # Panics
///
/// If a word is no byte in hex.
#[must_use]
pub fn from_hex(text: &str) -> Vec<u8> {
    text.split_whitespace()
        .map(|byte| u8::from_str_radix(byte, 16).expect("two hex digits"))
        .collect()
}
