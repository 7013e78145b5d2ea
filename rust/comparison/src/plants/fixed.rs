//! Plants whose answers and words are known, without the reference.

use super::drawing::{individual, Connection};
use super::worked::{CHECKED, REFUSED, WITHIN};
use super::{Drawing, MOST};
use crate::hex::{from_hex, Hex};
use crate::worked::{S1, S6};
use crate::Checking;
use reference::domino::insert;
use reference::{PlantCheck, Refusal};

/// What a set holds before.
const BEFORE: [u64; 4] = [0, u64::MAX, 0x5555_5555_5555_5555, 1 << 63];

/// Asserts what is said of a plant and which words are left, and that one word
/// less is too short.
#[track_caller]
fn assert_checked(
    engine: &impl Checking,
    (sheet, plant): (&[u8], &[u8]),
    check: PlantCheck,
    numbers: &[u64],
) {
    let what = format!("{}, plant of {} bytes", Hex(sheet), plant.len());
    let counts = reference::read(sheet).expect(&what);
    let shape = counts.shape();
    let words = shape.words();
    let mut written = vec![0; words];
    for &number in numbers {
        insert(&mut written, number);
    }
    for before in BEFORE {
        let mut set = vec![before; words + 3];
        let outcome = engine.check_plant(sheet, plant, &mut set);
        assert_eq!(outcome, Ok(check), "{what}");
        assert_eq!(set[..words], written, "{what}");
        assert_eq!(set[words..], [before; 3], "{what}");
    }
    assert_refused(engine, (sheet, plant), words - 1, 10);
}

/// Asserts a refusal whose place is 0, and that the set is kept.
#[track_caller]
fn assert_refused(
    engine: &impl Checking,
    (sheet, plant): (&[u8], &[u8]),
    words: usize,
    number: u64,
) {
    let refusal = Refusal { number, place: 0 };
    for before in BEFORE {
        let mut set = vec![before; words];
        let outcome = engine.check_plant(sheet, plant, &mut set);
        assert_eq!(outcome, Err(refusal), "{}", Hex(sheet));
        assert!(set.iter().all(|&word| word == before), "{}", Hex(sheet));
    }
}

/// The plants worked by hand.
///
/// # Panics
///
/// Where the engine answers otherwise.
pub fn worked(engine: &impl Checking) {
    for (sheet, plant, check, numbers) in CHECKED {
        let (sheet, plant) = (from_hex(sheet), from_hex(plant));
        assert_checked(engine, (&sheet, &plant), check, numbers);
    }
    for (sheet, plant, number) in REFUSED {
        let (sheet, plant) = (from_hex(sheet), from_hex(plant));
        assert_refused(engine, (&sheet, &plant), 4, number);
        assert_refused(engine, (&sheet, &plant), 0, 10);
    }
    // the sheet's own fault comes first, and has its place
    let refusal = Refusal {
        number: 5,
        place: 3,
    };
    let outcome = engine.check_plant(&[0x03, 0, 0x04, 1], &[0x42], &mut []);
    assert_eq!(outcome, Err(refusal));
}

/// As many individuals as there may be, and one more.
///
/// # Panics
///
/// Where the engine answers otherwise.
pub fn most_individuals(engine: &impl Checking) {
    let full = individual(0).repeat(MOST);
    let then = |more: &str| [full.clone(), from_hex(more)].concat();
    assert_checked(engine, (&[], &full), PlantCheck::Holds, &[0]);
    for (more, number) in AFTER_ALL {
        assert_refused(engine, (&[], &then(more)), 1, number);
    }
    // a fault before the one too many
    let early = [&individual(1)[..], &full].concat();
    assert_refused(engine, (&[], &early), 1, 24);
    let role = from_hex("10 00");
    let joined = then("41 FF 03 00 00 00");
    assert_checked(engine, (&role, &joined), PlantCheck::Holds, &[0, 1, 2]);
    for more in [
        "41 00 04 00 00 00",
        "41 00 00 00 04 00",
        "41 FF 03 FF 03 01",
    ] {
        assert_refused(engine, (&role, &then(more)), 1, 24);
    }
    let within = from_hex(WITHIN);
    for (more, check) in [
        ("41 E8 03 BC 02 00", PlantCheck::Pair(1_000, 700)),
        (
            "41 E8 03 BC 02 00 41 84 03 FF 03 00",
            PlantCheck::Pair(900, 1_023),
        ),
    ] {
        assert_checked(engine, (&within, &then(more)), check, &[0, 1, 2]);
    }
    let named = [individual(1).repeat(MOST), from_hex("41 FF 03 FF 03 00")].concat();
    let check = PlantCheck::Item(0);
    assert_checked(engine, (&from_hex(S6), &named), check, &[33, 57]);
}

/// What stands after 1,024 individuals of a sheet that says nothing, and the
/// refusal.
const AFTER_ALL: [(&str, u64); 8] = [
    ("40 00 00", 23),
    ("40 01 00", 23),
    ("40 00", 22),
    ("42", 22),
    ("41 00 00 00 00 00", 24),
    ("41 00 00 00 00", 22),
    ("41 00 00 00 00 00 40 00 00", 24),
    ("40 00 00 41 00 00 00 00 00", 23),
];

/// Of 1,024 individuals that are joined to themselves one alone lacks what each is
/// to be joined to.
///
/// # Panics
///
/// Where the engine answers otherwise.
pub fn any_individual_breaks(engine: &impl Checking) {
    let sheet = from_hex(S1);
    let to_itself = |x| Connection {
        from: x,
        to: x,
        role: 0,
    };
    for breaking in [0, 1, 127, 128, 129, 511, 895, 896, 1_023] {
        let drawing = Drawing {
            individuals: (0..MOST).map(|x| u16::from(x != breaking)).collect(),
            connections: (0..MOST).map(to_itself).collect(),
        };
        let file = drawing.records().concat();
        let check = PlantCheck::Item(breaking);
        // to itself, of the others and of that one; and of two, not joined
        let numbers = [63, 12, 51, 48, 3];
        assert_checked(engine, (&sheet, &file), check, &numbers);
    }
}

/// Of 1,024 individuals one is joined to one by a role that is to be within
/// another, and the last to itself too.
///
/// # Panics
///
/// Where the engine answers otherwise.
pub fn any_pair_breaks(engine: &impl Checking) {
    let sheet = from_hex(WITHIN);
    let joining = |(from, to)| Connection { from, to, role: 0 };
    let last = MOST - 1;
    for breaking in [
        (0, last),
        (127, 128),
        (128, 127),
        (128, 128),
        (129, 0),
        (895, 896),
        (last, 0),
        (last, 896),
    ] {
        let drawing = Drawing {
            individuals: vec![0; MOST],
            connections: [(last, last), breaking].map(joining).into(),
        };
        let file = drawing.records().concat();
        let check = PlantCheck::Pair(breaking.0, breaking.1);
        // not joined, one way, the other way, to itself
        let numbers = match breaking {
            (x, y) if x == y => &[0, 3][..],
            _ => &[0, 1, 2, 3],
        };
        assert_checked(engine, (&sheet, &file), check, numbers);
    }
}

/// All connections of 1,024 individuals by four roles, and all but the last.
///
/// # Panics
///
/// Where the engine answers otherwise.
pub fn most_connections(engine: &impl Checking) {
    let mut file = individual(0).repeat(MOST);
    for number in 0..4 * MOST * MOST {
        let (pair, role) = (number / 4, number % 4);
        let (from, to) = (pair / MOST, pair % MOST);
        file.extend(Connection { from, to, role }.record());
    }
    let roles = from_hex("10 03");
    assert_checked(engine, (&roles, &file), PlantCheck::Holds, &[255]);
    // role 2 within role 3, which is not there from the last to itself
    let within = from_hex("10 03 10 02 21 01 00");
    let but_one = &file[..file.len() - 6];
    let check = PlantCheck::Pair(MOST - 1, MOST - 1);
    assert_checked(engine, (&within, but_one), check, &[63, 255]);
}
