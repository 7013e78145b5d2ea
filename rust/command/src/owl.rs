//! OWL text: which file is one, and its refusal drawn.

#[cfg(test)]
mod tests;

use crate::hex::{is_blank, MARK};

/// The bytes that an OWL text has at most.
pub const LIMIT: usize = 1 << 22;

/// Words that OWL text begins with. A whole ontology is one that is refused.
const FIRST: [&str; 3] = ["SubClassOf", "Prefix", "Ontology"];

/// Whether a file is OWL text, by its first word; none where that may go on
/// after this front.
pub fn is_text(front: &[u8]) -> Option<bool> {
    if MARK.starts_with(front) {
        return None;
    }
    let rest = front.strip_prefix(&MARK).unwrap_or(front);
    let blanks = rest.iter().take_while(|byte| is_blank(**byte)).count();
    let word = &rest[blanks..];
    let ends = |&byte: &u8| is_blank(byte) || matches!(byte, b'(' | b')');
    let mut first = FIRST.iter().map(|first| first.as_bytes());
    match word.iter().position(ends) {
        Some(length) => Some(first.any(|first| first == &word[..length])),
        None if first.any(|first| first.starts_with(word)) => None,
        None => Some(false),
    }
}

/// So much is shown of a line in front of a fault, of the word, and after it.
const SHOWN: usize = 60;

/// The line of a byte of a text, with the word there underlined.
pub fn drawing(text: &[u8], place: usize) -> Option<String> {
    let (before, rest) = text.split_at_checked(place)?;
    let line = 1 + before.iter().filter(|&&byte| byte == b'\n').count();
    let start = before.iter().rposition(|&byte| byte == b'\n');
    let before = &before[start.map_or(0, |feed| feed + 1)..];
    let length = rest.iter().take_while(|byte| is_of_word(**byte)).count();
    let parenthesis = usize::from(matches!(rest, [b'(' | b')', ..]));
    let (word, after) = rest.split_at(length.max(parenthesis));
    let end = after.iter().position(|&byte| byte == b'\n');
    let after = &after[..end.unwrap_or(after.len())];

    let (cut, before) = last(before);
    let (word, word_cut) = first(word);
    let (after, after_cut) = first(if word_cut.is_empty() { after } else { &[] });
    let front = format!("  line {line}:  {cut}{before}");
    let indent = front.chars().count();
    let marks = "^".repeat(word.chars().count().max(1));
    Some(format!(
        "{front}{word}{word_cut}{after}{after_cut}\n{:indent$}{marks}\n",
        ""
    ))
}

fn is_of_word(byte: u8) -> bool {
    !matches!(byte, b' ' | b'\n' | b'(' | b')')
}

/// The end of some bytes in letters, after dots if it is not all.
fn last(bytes: &[u8]) -> (&'static str, String) {
    let cut = bytes.len().saturating_sub(SHOWN);
    (if cut > 0 { ".." } else { "" }, letters(&bytes[cut..]))
}

/// The front of some bytes in letters, before dots if it is not all.
fn first(bytes: &[u8]) -> (String, &'static str) {
    let length = bytes.len().min(SHOWN);
    let cut = length < bytes.len();
    (letters(&bytes[..length]), if cut { ".." } else { "" })
}

/// Bytes in letters, a mark for what has none.
fn letters(bytes: &[u8]) -> String {
    let letters = String::from_utf8_lossy(bytes);
    let shown = |c: char| if c.is_control() { '\u{fffd}' } else { c };
    letters.chars().map(shown).collect()
}
