//! Texts with faults, and tokens in any order.

use super::made_up::{laid_out, text, tokens, MAX_RECORDS};
use crate::random::Random;

/// Every token.
const TOKENS: [&str; 27] = [
    "(",
    ")",
    "SubClassOf",
    "ObjectIntersectionOf",
    "ObjectUnionOf",
    "ObjectComplementOf",
    "ObjectSomeValuesFrom",
    "ObjectAllValuesFrom",
    "ObjectInverseOf",
    "owl:Thing",
    "owl:Nothing",
    ":t0",
    ":t1",
    ":t2",
    ":t3",
    ":t4",
    ":t5",
    ":t6",
    ":t7",
    ":t8",
    ":t9",
    ":t10",
    ":t11",
    ":k0",
    ":k1",
    ":k2",
    ":k3",
];

/// Words that are nearly tokens, or none.
const UNKNOWN: [&str; 32] = [
    ":t01",
    ":t12",
    ":t00",
    ":t011",
    ":t111",
    ":t",
    ":T0",
    "t0",
    ":t-1",
    ":t1.",
    ":k4",
    ":k01",
    ":k",
    ":K0",
    ":k00",
    ":r0",
    "owl:thing",
    "owl:nothing",
    "owl:",
    "Thing",
    "subclassof",
    "SubClassof",
    "SubClassOf:",
    "ObjectUnionof",
    "ObjectInverseOf:k0",
    "ObjectHasSelf",
    "Prefix",
    "Ontology",
    "\u{e9}",
    "\u{feff}",
    "#",
    "<",
];

/// Bytes that are no blanks, though they look so, and other odd ones.
const ODD: [u8; 12] = *b"\t\r\0\x0b\x0c\xA0\xFF,;:\"\x7f";

/// A made-up text with some damage done to it.
#[must_use]
pub fn damaged(random: &mut Random) -> Vec<u8> {
    if random.one_in(2) {
        return damaged_tokens(random);
    }
    let mut text = text(random);
    let at = random.below(text.len() + 1);
    match random.below(6) {
        0 => text.truncate(at),
        1 => text.insert(at, random.pick(&ODD)),
        2 => text.insert(at, random.pick(b" \n()")),
        3 if at < text.len() => text[at] = random.byte(),
        4 if at < text.len() => drop(text.remove(at)),
        _ => {
            let word = vec![random.pick(b"a:t(\xFF"); 1 + random.below(3_000)];
            text.splice(at..at, word);
        }
    }
    text
}

/// With one token too few, too many, exchanged or replaced; sometimes at the end
/// of as many records as there may be.
fn damaged_tokens(random: &mut Random) -> Vec<u8> {
    let full = random.one_in(8);
    let records = if full {
        MAX_RECORDS + random.below(3)
    } else {
        3 + random.below(60)
    };
    let mut tokens = tokens(records, random);
    let end = if full {
        tokens.len().min(12)
    } else {
        tokens.len()
    };
    let at = tokens.len() - 1 - random.below(end);
    match random.below(6) {
        0 => drop(tokens.remove(at)),
        1 => tokens.insert(at, random.pick(&TOKENS)),
        2 => tokens.insert(at, random.pick(&UNKNOWN)),
        3 => tokens[at] = random.pick(&TOKENS),
        4 => tokens[at] = random.pick(&UNKNOWN),
        _ => tokens.swap(at, random.below(at + 1)),
    }
    laid_out(&tokens, random)
}

/// Tokens in any order, mostly after the beginning of a text.
#[must_use]
pub fn soup(random: &mut Random) -> Vec<u8> {
    let mut beginning = tokens(3 + random.below(30), random);
    let length = random.below(beginning.len() + 1);
    beginning.truncate(length);
    if random.one_in(4) {
        beginning.clear();
    }
    let more = 1 + random.below(20);
    for _ in 0..more {
        // parentheses are half of a text
        let token = match random.below(16) {
            0 => random.pick(&UNKNOWN),
            1..=6 => random.pick(&TOKENS[..2]),
            _ => random.pick(&TOKENS),
        };
        beginning.push(token);
    }
    laid_out(&beginning, random)
}
