//! The words and parentheses of a text.

use crate::fault::{Fault, Refusal};

/// A parenthesis or a known word.
#[derive(Clone, Copy, PartialEq, Eq)]
pub(super) enum Token {
    Open,
    Close,
    SubClassOf,
    IntersectionOf,
    UnionOf,
    ComplementOf,
    SomeValuesFrom,
    AllValuesFrom,
    InverseOf,
    Thing,
    Nothing,
    Name(usize),
    RoleName(usize),
}

const KNOWN: [(&[u8], Token); 27] = [
    (b"(", Token::Open),
    (b")", Token::Close),
    (b"SubClassOf", Token::SubClassOf),
    (b"ObjectIntersectionOf", Token::IntersectionOf),
    (b"ObjectUnionOf", Token::UnionOf),
    (b"ObjectComplementOf", Token::ComplementOf),
    (b"ObjectSomeValuesFrom", Token::SomeValuesFrom),
    (b"ObjectAllValuesFrom", Token::AllValuesFrom),
    (b"ObjectInverseOf", Token::InverseOf),
    (b"owl:Thing", Token::Thing),
    (b"owl:Nothing", Token::Nothing),
    (b":t0", Token::Name(0)),
    (b":t1", Token::Name(1)),
    (b":t2", Token::Name(2)),
    (b":t3", Token::Name(3)),
    (b":t4", Token::Name(4)),
    (b":t5", Token::Name(5)),
    (b":t6", Token::Name(6)),
    (b":t7", Token::Name(7)),
    (b":t8", Token::Name(8)),
    (b":t9", Token::Name(9)),
    (b":t10", Token::Name(10)),
    (b":t11", Token::Name(11)),
    (b":k0", Token::RoleName(0)),
    (b":k1", Token::RoleName(1)),
    (b":k2", Token::RoleName(2)),
    (b":k3", Token::RoleName(3)),
];

/// The tokens of a text, each with the byte where it begins; a refusal for a
/// word that is not known.
pub(super) struct Tokens<'a> {
    text: &'a [u8],
    /// The byte to go on from.
    at: usize,
}

impl<'a> Tokens<'a> {
    pub(super) fn of(text: &'a [u8]) -> Self {
        Tokens { text, at: 0 }
    }
}

impl Iterator for Tokens<'_> {
    type Item = Result<(usize, Token), Refusal>;

    fn next(&mut self) -> Option<Self::Item> {
        let rest = &self.text[self.at..];
        let blanks = rest.iter().take_while(|byte| is_blank(**byte)).count();
        let place = self.at + blanks;
        let rest = &rest[blanks..];
        let length = match rest.first()? {
            b'(' | b')' => 1,
            _ => rest.iter().take_while(|byte| is_of_word(**byte)).count(),
        };
        self.at = place + length;
        let known = KNOWN.iter().find(|(word, _)| *word == &rest[..length]);
        Some(match known {
            Some(&(_, token)) => Ok((place, token)),
            None => Err(Refusal::at(place, Fault::UnknownWord)),
        })
    }
}

fn is_blank(byte: u8) -> bool {
    matches!(byte, b' ' | b'\n')
}

fn is_of_word(byte: u8) -> bool {
    !is_blank(byte) && !matches!(byte, b'(' | b')')
}
