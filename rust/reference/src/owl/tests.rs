//! Tokens, axioms, records and lines, one by one.

use super::tokens::{Token, Tokens};
use super::*;
use crate::written::{Concept, Role};
use std::rc::Rc;

fn refused(number: u64, place: u64) -> Refusal {
    Refusal { number, place }
}

/// Where each token begins, and how many there are before a refusal.
fn places(text: &[u8]) -> (Vec<usize>, Option<Refusal>) {
    let mut places = Vec::new();
    for token in Tokens::of(text) {
        match token {
            Ok((place, _)) => places.push(place),
            Err(refusal) => return (places, Some(refusal)),
        }
    }
    (places, None)
}

#[test]
fn tokens_need_no_blank_beside_a_parenthesis() {
    let rows: [(&str, &[usize]); 5] = [
        ("", &[]),
        (" \n\n ", &[]),
        ("(:t0)", &[0, 1, 4]),
        ("\n( :t0\n:k3 ) ", &[1, 3, 7, 11]),
        ("SubClassOf(owl:Thing)(", &[0, 10, 11, 20, 21]),
    ];
    for (text, expected) in rows {
        assert_eq!(places(text.as_bytes()), (expected.to_vec(), None), "{text}");
    }
}

#[test]
fn other_words_are_not_known() {
    for word in [
        ":t12", ":t01", ":k4", "owl:Thin", "\t", "\r", "\0", "x:t0", "\u{a0}",
    ] {
        let text = format!("( {word}\n)");
        let expected = (vec![0], Some(refused(18, 2)));
        assert_eq!(places(text.as_bytes()), expected, "{word:?}");
    }
}

#[test]
fn every_name_has_its_number() {
    for number in 0..12 {
        let text = format!(":t{number}");
        let token = Tokens::of(text.as_bytes()).next();
        assert!(token == Some(Ok((0, Token::Name(number)))), "{text}");
    }
    for number in 0..4 {
        let text = format!(":k{number}");
        let token = Tokens::of(text.as_bytes()).next();
        assert!(token == Some(Ok((0, Token::RoleName(number)))), "{text}");
    }
}

/// An axiom of every form.
const EVERY_FORM: &str = "SubClassOf(\
     ObjectIntersectionOf(ObjectSomeValuesFrom(:k1 owl:Thing) ObjectComplementOf(:t3)) \
     ObjectUnionOf(ObjectAllValuesFrom(ObjectInverseOf(:k0) owl:Nothing) :t1))\n";

#[test]
fn an_axiom_of_every_form() {
    let [top, bottom] = [Concept::Top, Concept::Bottom].map(Rc::new);
    let [t3, t1] = [3, 1].map(|number| Rc::new(Concept::Name(number)));
    let exists = Concept::Exists(Rc::new(Role::Name(1)), top);
    let forall = Concept::Forall(Rc::new(Role::Inverse(0)), bottom);
    let not = Concept::Not(t3);
    let axiom = Axiom {
        left: Rc::new(Concept::And(Rc::new(exists), Rc::new(not))),
        right: Rc::new(Concept::Or(Rc::new(forall), t1)),
    };
    assert_eq!(axioms(EVERY_FORM.as_bytes()), Ok(vec![axiom.clone()]));
    assert_eq!(text::lines(&[axiom.clone(), axiom]), EVERY_FORM.repeat(2));
}

/// Its records, operands first.
const RECORDS: [u8; 31] = [
    0x10, 1, 0x01, 0x07, 0, 1, 0x03, 3, 0x04, 3, 0x05, 2, 4, // left
    0x11, 0, 0x02, 0x08, 6, 7, 0x03, 1, 0x06, 8, 9, // right
    0x20, 5, 10, 0x03, 0, 0x04, 12,
];

#[test]
fn operands_come_first_each_in_a_record_of_its_own() {
    let mut out = [9; 40];
    assert_eq!(import(EVERY_FORM.as_bytes(), &mut out), Ok(27));
    assert_eq!(out[..27], RECORDS[..27]);
    assert_eq!(out[27..], [9; 13]);
    let mut short = [9; 26];
    assert_eq!(
        import(EVERY_FORM.as_bytes(), &mut short),
        Err(refused(21, 0))
    );
    assert_eq!(short, [9; 26]);
}

#[test]
fn records_that_no_axiom_reaches_have_no_text() {
    let mut out = [9; 200];
    let length = export(&RECORDS, &mut out).expect("no Boolean role");
    assert_eq!(&out[..length], EVERY_FORM.as_bytes());
    assert!(out[length..].iter().all(|&byte| byte == 9));
    let mut short = vec![9; length - 1];
    assert_eq!(export(&RECORDS, &mut short), Err(refused(21, 0)));
    assert!(short.iter().all(|&byte| byte == 9));
}

/// What stands where a form, a name or an axiom must, and where each is refused.
#[test]
fn what_cannot_stand() {
    let rows = [
        ("(", 19, 0),
        ("SubClassOf(:t0 :t0)\n:t0", 19, 20),
        ("SubClassOf SubClassOf", 19, 11),
        ("SubClassOf(SubClassOf", 19, 11),
        ("SubClassOf(:t0 ObjectInverseOf(:k0))", 19, 15),
        ("SubClassOf(ObjectComplementOf(:t0 :t0) :t0)", 19, 34),
        ("SubClassOf(ObjectUnionOf(:t0) :t0)", 19, 28),
        ("SubClassOf(ObjectUnionOf(:t0 :t0 :t0) :t0)", 19, 33),
        ("SubClassOf(ObjectSomeValuesFrom(:k0) :t0)", 19, 35),
        ("SubClassOf(ObjectSomeValuesFrom(:k0 :k0) :t0)", 19, 36),
        (
            "SubClassOf(ObjectAllValuesFrom(ObjectInverseOf(:t0) :t0) :t0)",
            19,
            47,
        ),
        ("SubClassOf(:t0 :t0 \n", 19, 20),
        ("SubClassOf(:t0 :t0 x", 18, 19),
    ];
    for (text, number, place) in rows {
        assert_eq!(
            axioms(text.as_bytes()),
            Err(refused(number, place)),
            "{text}"
        );
    }
}

/// A record counts when its word or name stands where it may; an inverse and its
/// name are one.
#[test]
fn a_256th_record() {
    let of = |axioms: usize, more: &str| "SubClassOf(:t0 :t0)".repeat(axioms) + more;
    let at = 19 * 85;
    let rows = [
        (of(85, ""), None),
        (of(85, "SubClassOf"), Some((3, 0))),
        (of(85, " :t0"), Some((19, at + 1))),
        (of(85, " x"), Some((18, at + 1))),
        (of(84, "SubClassOf(:t0 ObjectInverseOf"), Some((19, at - 4))),
        (
            of(84, "SubClassOf(:t0 ObjectComplementOf"),
            Some((19, at + 14)),
        ),
        (
            of(84, "SubClassOf(:t0 ObjectComplementOf :t0"),
            Some((19, at + 15)),
        ),
        (
            of(84, "SubClassOf(:t0 ObjectComplementOf(:t0"),
            Some((3, 0)),
        ),
        (
            of(84, "SubClassOf(:t0 ObjectComplementOf(:k0"),
            Some((19, at + 15)),
        ),
    ];
    for (text, refusal) in rows {
        let expected = refusal.map(|(number, place)| refused(number, place as u64));
        assert_eq!(axioms(text.as_bytes()).err(), expected, "{text}");
    }
    let inverse = "SubClassOf(ObjectSomeValuesFrom(ObjectInverseOf(:k0) :t0) :t0)";
    assert!(axioms(of(83, inverse).as_bytes()).is_ok());
    let more = of(83, inverse) + "SubClassOf";
    assert_eq!(axioms(more.as_bytes()), Err(refused(19, more.len() as u64)));
    let most = more + "(";
    assert_eq!(axioms(most.as_bytes()), Err(refused(19, most.len() as u64)));
    let over = most + ":t0";
    assert_eq!(axioms(over.as_bytes()), Err(refused(3, 0)));
}

#[test]
fn the_first_axiom_with_a_boolean_role() {
    // a role with and in record 3, which some of it in record 4 names
    let before = [0x01, 0x10, 0, 0x11, 0, 0x13, 1, 2, 0x07, 3, 0];
    let then = |more: &[u8]| {
        let sheet = [&before[..], more].concat();
        export(&sheet, &mut [0; 100])
    };
    assert_eq!(then(&[]), Ok(0));
    assert_eq!(then(&[0x20, 0, 0]), Ok(32));
    assert_eq!(then(&[0x20, 0, 4]), Err(refused(20, 11)));
    assert_eq!(then(&[0x20, 0, 0, 0x20, 4, 0]), Err(refused(20, 14)));
    assert_eq!(
        then(&[0x04, 4, 0x20, 0, 0, 0x20, 5, 0]),
        Err(refused(20, 16))
    );
    // a fault of the sheet comes first
    assert_eq!(then(&[0x20, 0, 4, 0x03]), Err(refused(2, 14)));
    assert_eq!(then(&[0x20, 0, 4, 0x03, 11]), Err(refused(9, 0)));
}
