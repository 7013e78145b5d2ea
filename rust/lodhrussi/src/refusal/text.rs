//! What a text shows of its refusal.

#[cfg(test)]
mod tests;

use super::shown::count;
use super::Refusal;
use crate::owl::MOST_SHEET;

/// A sentence with what the text shows; none if it is not the one refused.
pub(super) fn shown(refusal: &Refusal, text: &[u8]) -> Option<String> {
    let place = usize::try_from(refusal.place).ok()?;
    match (refusal.number, crate::import(text, &mut [0; MOST_SHEET])) {
        (21, Ok(length)) => {
            let bytes = count(length as u64, "byte");
            Some(format!("The text's sheet takes {bytes}."))
        }
        (number, Err(first)) if (number, refusal.place) == (first.number, first.place) => {
            match number {
                3 => Some(one_too_many(text)),
                _ => Some(found(text, place)),
            }
        }
        _ => None,
    }
}

/// Where the record begins that is one too many.
fn one_too_many(text: &[u8]) -> String {
    let is_refused = |end: usize| {
        let beginning = crate::import(&text[..end], &mut [0; MOST_SHEET]);
        beginning.is_err_and(|refusal| refusal.number == 3)
    };
    // the shortest beginning that is refused so
    let (mut low, mut end) = (0, text.len());
    while low < end {
        let middle = low.midpoint(end);
        if is_refused(middle) {
            end = middle;
        } else {
            low = middle + 1;
        }
    }
    let letters = text[..end].iter().rev().take_while(|b| is_of_word(**b));
    let start = end - letters.count();
    let (at, word) = (at(text, start), word(text, start));
    format!("The 256th record begins at {at}: {word}.")
}

/// What stands at the place, and what may stand there.
fn found(text: &[u8], place: usize) -> String {
    let mut sentence = at(text, place);
    sentence[..1].make_ascii_uppercase();
    let found = if place == text.len() {
        "the end of the text".into()
    } else {
        word(text, place)
    };
    let wanted = wanted(&text[..place]);
    format!("{sentence}: found {found}; wanted {wanted}.")
}

/// Line and column of a byte, both from 1; a column is a byte.
fn at(text: &[u8], place: usize) -> String {
    let before = &text[..place];
    let line = 1 + before.iter().filter(|&&byte| byte == b'\n').count();
    let start = before.iter().rposition(|&byte| byte == b'\n');
    let column = place - start.map_or(0, |feed| feed + 1) + 1;
    format!("line {line}, column {column}")
}

/// The letters of a word that are told.
const TOLD: usize = 40;

/// The word or parenthesis at a byte, in quotes.
fn word(text: &[u8], place: usize) -> String {
    let rest = &text[place..];
    let length = rest.iter().take_while(|byte| is_of_word(**byte)).count();
    let letters = String::from_utf8_lossy(&rest[..length.max(1)]);
    let told: String = letters.chars().take(TOLD).collect();
    let more = if told.len() < letters.len() { ".." } else { "" };
    format!("'{}{more}'", told.escape_debug())
}

fn is_of_word(byte: u8) -> bool {
    !matches!(byte, b' ' | b'\n' | b'(' | b')')
}

/// What may come next in a text, each with how it is told.
const NEXT: [(&str, &str); 6] = [
    ("SubClassOf", "SubClassOf"),
    ("(", "'('"),
    (")", "')'"),
    (
        "owl:Thing",
        "a class (:t0 to :t11, owl:Thing, owl:Nothing or a form of classes)",
    ),
    ("ObjectInverseOf", "a link (:k0 to :k3 or ObjectInverseOf)"),
    (":k0", "the name of a link (:k0 to :k3)"),
];

/// What may come after the beginning of a text.
fn wanted(before: &[u8]) -> &'static str {
    let may_come = |next: &str| {
        let text = [before, b" ", next.as_bytes()].concat();
        let place = before.len() as u64 + 1;
        let refusal = crate::import(&text, &mut []).err();
        refusal.is_none_or(|refusal| (refusal.number, refusal.place) != (19, place))
    };
    let next = NEXT.iter().find(|(next, _)| may_come(next));
    next.map_or("nothing more", |(_, told)| told)
}
