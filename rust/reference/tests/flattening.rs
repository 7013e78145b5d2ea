//! The two flattenings, by trees and by record numbers, have the same parts,
//! with claims shared and with each occurrence apart.

use comparison::made_up;
use comparison::random::Random;
use reference::flat::{flatten, flatten_apart, Filler, FlatKb, Part, Restriction};
use reference::written::{Concept, Written};
use reference::{apart, list_marks, read, Counts, Refusal};
use std::rc::Rc;

const SHEETS: usize = 20_000;

fn kind(part: &Part) -> u8 {
    match part {
        Part::Name => 0,
        Part::Fresh(_) => 1,
        Part::Exists(_) => 2,
        Part::Forall(_) => 3,
    }
}

/// The filler that a concept is in normal form, if it needs no fresh name.
fn atom(concept: &Concept, negated: bool) -> Option<Filler> {
    match (concept, negated) {
        (Concept::Top, false) | (Concept::Bottom, true) => Some(Filler::Top),
        (Concept::Bottom, false) | (Concept::Top, true) => Some(Filler::Bottom),
        (Concept::Name(name), false) => Some(Filler::Part(*name)),
        (Concept::Not(c), _) => atom(c, !negated),
        _ => None,
    }
}

/// The part of that number, from the restriction that is listed for it.
fn restriction(number: usize, concept: &Concept, negated: bool) -> Part {
    let (exists, role, filler) = match concept {
        Concept::Exists(role, filler) => (true, role, filler),
        Concept::Forall(role, filler) => (false, role, filler),
        _ => panic!("no restriction: {concept:?}"),
    };
    let role = Rc::clone(role);
    let filler = atom(filler, negated).unwrap_or(Filler::Part(number + 1));
    let restriction = Restriction { role, filler };
    if exists == negated {
        return Part::Forall(restriction);
    }
    Part::Exists(restriction)
}

/// What a flattening has of each kind of parts, and of roles.
fn counts(flat: &FlatKb) -> Counts {
    let kinds: Vec<u8> = flat.parts.iter().map(kind).collect();
    let of_kind = |number| kinds.iter().filter(|&&kind| kind == number).count() as u64;
    Counts {
        traits: of_kind(0),
        fresh: of_kind(1),
        some: of_kind(2),
        only: of_kind(3),
        links: flat.roles as u64,
    }
}

/// Compares a flattening with what was counted and listed for its sheet.
fn compare(
    sheet: &[u8],
    flat: Result<FlatKb, Refusal>,
    counted: Result<Counts, Refusal>,
    listed: Result<usize, Refusal>,
    list: &[u8],
) {
    let of_flat = flat.as_ref().map(counts).map_err(|refusal| *refusal);
    assert_eq!(of_flat, counted, "{sheet:02X?}");
    assert_eq!(flat.as_ref().err(), listed.as_ref().err(), "{sheet:02X?}");
    let (Ok(flat), Ok(parts)) = (flat, listed) else {
        return;
    };
    let written = Written::read(sheet).expect("a sheet that was accepted");
    assert_eq!(flat.parts.len(), parts, "{sheet:02X?}");
    for (number, (part, listed)) in flat.parts.iter().zip(list.chunks(3)).enumerate() {
        assert_eq!(kind(part), listed[0], "part {number} of {sheet:02X?}");
        if listed[0] >= 2 {
            let concept = written.concept(usize::from(listed[1]));
            let expected = restriction(number, &concept, listed[2] == 1);
            assert_eq!(*part, expected, "part {number} of {sheet:02X?}");
        }
    }
}

#[test]
fn parts_agree() {
    let mut random = Random::seeded(13);
    for turn in 0..SHEETS {
        let sheet = match turn % 2 {
            0 => made_up::sheet(&mut random).bytes,
            _ => made_up::repeating_sheet(&mut random).bytes,
        };
        let mut list = [0; 36];
        let listed = list_marks(&sheet, &mut list);
        compare(&sheet, flatten(&sheet), read(&sheet), listed, &list);
        let listed = apart::list_marks(&sheet, &mut list);
        let counted = apart::read(&sheet);
        compare(&sheet, flatten_apart(&sheet), counted, listed, &list);
    }
}
