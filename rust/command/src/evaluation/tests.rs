use super::*;
use crate::parts::parts;
use crate::tree::trees;
use comparison::plants::{Connection, Drawing};
use comparison::random::Random;
use comparison::worked::{from_hex, JUDGED, S1, S6};
use comparison::{few_axioms, made_up};
use lodhrussi::{check_plant, words_needed, PlantCheck};

/// The last record's tree of a sheet.
fn last(sheet: &str) -> Rc<Tree> {
    trees(&from_hex(sheet)).pop().expect("a record")
}

/// Three items: t0, nothing, t0 and t1. The first is joined by k0 to the second
/// and to itself, the second by k1 to the third.
const PLANT: &str = "40 01 00 40 00 00 40 03 00 \
                     41 00 00 01 00 00 41 00 00 00 00 00 41 01 00 02 00 01";

/// A concept, and of which items it holds.
const HOLD: [(&str, [bool; 3]); 16] = [
    ("01", [true, true, true]),
    ("02", [false, false, false]),
    ("03 00", [true, false, true]),
    ("03 01", [false, false, true]),
    ("03 00 04 00", [false, true, false]),
    ("03 00 03 01 05 00 01", [false, false, true]),
    ("03 00 03 01 06 00 01", [true, false, true]),
    ("10 00 03 00 07 00 01", [true, false, false]),
    ("10 00 03 00 08 00 01", [false, true, true]),
    ("10 01 03 01 07 00 01", [false, true, false]),
    ("11 00 03 00 07 00 01", [true, true, false]),
    ("11 01 02 08 00 01", [true, true, false]),
    ("10 00 11 00 13 00 01 01 07 02 03", [true, false, false]),
    ("10 00 11 01 14 00 01 01 07 02 03", [true, false, true]),
    (
        "10 00 11 00 12 01 13 00 02 01 07 03 04",
        [true, false, false],
    ),
    ("10 00 10 01 03 01 07 01 02 07 00 03", [true, false, false]),
];

#[test]
fn concepts_hold_of_items() {
    let plant = Plant::of(&from_hex(PLANT));
    for (concept, holds) in HOLD {
        assert_eq!(extension(&last(concept), &plant), holds, "{concept}");
        let negated = Tree::Not(last(concept));
        let others = holds.map(|holds| !holds);
        assert_eq!(extension(&negated, &plant), others, "not {concept}");
    }
    for no_concept in ["10 00", "11 00", "01 20 00 00", "10 00 21 00 00"] {
        assert_eq!(extension(&last(no_concept), &plant), [false; 3]);
    }
}

#[test]
fn roles_hold_on_role_sets() {
    let holding = |role: &str| {
        let role = last(role);
        (0..16).filter(|roles| role_holds(&role, *roles)).collect()
    };
    let rows: [(&str, Vec<u8>); 6] = [
        ("10 00", vec![1, 3, 5, 7, 9, 11, 13, 15]),
        ("11 01", vec![8, 9, 10, 11, 12, 13, 14, 15]),
        ("10 00 12 00", vec![0, 2, 4, 6, 8, 10, 12, 14]),
        ("10 00 11 01 13 00 01", vec![9, 11, 13, 15]),
        (
            "11 00 10 01 14 00 01",
            vec![2, 3, 4, 5, 6, 7, 10, 11, 12, 13, 14, 15],
        ),
        ("03 00", vec![]),
    ];
    for (role, expected) in rows {
        let found: Vec<u8> = holding(role);
        assert_eq!(found, expected, "{role}");
    }
}

#[test]
fn what_is_broken_is_told_by_its_record() {
    let plant = Plant::of(&from_hex(PLANT));
    // every t0 is t1; every t1 is t0; every t0 is nothing
    let axioms = trees(&from_hex("03 00 03 01 20 00 01 20 01 00 02 20 00 04"));
    let broken = [0, 1, 2].map(|item| broken_axioms(&axioms, &plant, item));
    assert_eq!(broken, [vec![2, 5], vec![], vec![5]]);
    // k0 within k1; k1 within not k1 reversed; k0 within k0 reversed
    let inclusions = trees(&from_hex(
        "10 00 10 01 21 00 01 11 01 12 03 21 01 04 11 00 21 00 06",
    ));
    let roles = [0b0000, 0b0001, 0b0101, 0b1100, 0b1111, 0b0010];
    let broken = roles.map(|roles| broken_inclusions(&inclusions, roles));
    assert_eq!(
        broken,
        [vec![], vec![2, 7], vec![7], vec![5], vec![5], vec![]]
    );
    assert_eq!(broken_axioms(&inclusions, &plant, 0), []);
    assert_eq!(broken_inclusions(&axioms, 0b0001), []);
}

fn of_sheet(sheet: &str) -> Vec<Part> {
    let sheet = from_hex(sheet);
    let counts = lodhrussi::read(&sheet).expect("a sheet without faults");
    parts(&sheet, counts).expect("a sheet without faults")
}

fn found(mark: usize, drawn: bool, items: &[usize]) -> Misdrawn {
    let items = items.into();
    Misdrawn { mark, drawn, items }
}

#[test]
fn fresh_names_that_are_drawn_wrongly() {
    // S6 has the fresh name 2, for not t0; the first item has t0
    let joined = "41 00 00 01 00 00 41 00 00 02 00 00";
    let rows: [(&str, &[Misdrawn]); 6] = [
        ("40 01 00 40 04 00 40 00 00", &[]),
        ("40 01 00 40 00 00 40 04 00", &[]),
        ("40 01 00 40 00 00 40 00 00", &[found(2, false, &[1, 2])]),
        ("40 01 00 40 01 00 40 00 00", &[found(2, false, &[2])]),
        ("40 05 00 40 04 00 40 00 00", &[found(2, true, &[0])]),
        ("40 05 00 40 01 00 40 01 00", &[found(2, true, &[0])]),
    ];
    let parts = of_sheet(S6);
    for (items, expected) in rows {
        let plant = Plant::of(&from_hex(&format!("{items} {joined}")));
        assert_eq!(misdrawn(&parts, &plant, 0), expected, "{items}");
    }
    assert_eq!(
        misdrawn(&of_sheet(S1), &Plant::of(&from_hex("40 01 00")), 0),
        []
    );
}

/// Of an only all that lack it are told, if its filler holds of each; its own item
/// may be one.
#[test]
fn fresh_names_of_universal_restrictions() {
    // everything is only k0 . not t0: the fresh name is 2
    let parts = of_sheet("03 00 10 00 01 04 00 08 01 03 20 02 04");
    let joined = "41 00 00 00 00 00 41 00 00 01 00 00 41 00 00 02 00 00";
    let rows: [(&str, &[Misdrawn]); 4] = [
        ("40 04 00 40 04 00 40 04 00", &[]),
        ("40 00 00 40 04 00 40 00 00", &[found(2, false, &[0, 2])]),
        ("40 04 00 40 04 00 40 01 00", &[]),
        ("40 05 00 40 00 00 40 00 00", &[found(2, true, &[0])]),
    ];
    for (items, expected) in rows {
        let plant = Plant::of(&from_hex(&format!("{items} {joined}")));
        assert_eq!(misdrawn(&parts, &plant, 0), expected, "{items}");
    }
}

/// A plant for a sheet: its items have bits of names and fresh names at random.
fn drawn(parts: &[Part], links: usize, random: &mut Random) -> Vec<u8> {
    let count = 1 + random.below(5);
    let may_be_set = |part: &Part| matches!(part.kind, PartKind::Name | PartKind::Fresh);
    let mut plant = Drawing::default();
    for _ in 0..count {
        let numbered = (0..).zip(parts).filter(|(_, part)| may_be_set(part));
        let bits = numbered.map(|(number, _)| u16::from(random.one_in(2)) << number);
        plant.individuals.push(bits.fold(0, |bits, bit| bits | bit));
    }
    for _ in 0..if links == 0 { 0 } else { random.below(10) } {
        let (from, to) = (random.below(count), random.below(count));
        let role = random.below(links);
        plant.connections.push(Connection { from, to, role });
    }
    plant.records().concat()
}

/// What the library finds of a plant, and what it has for a reason here: an item
/// that it names breaks an axiom as written or has a fresh name drawn wrongly, a
/// pair that it names is the first to break a role inclusion, and where it finds
/// nothing there is none of these.
fn found_with_its_reason(sheet: &[u8], random: &mut Random) -> usize {
    let counts = lodhrussi::read(sheet).expect("a sheet without faults");
    let parts = parts(sheet, counts).expect("a sheet without faults");
    let bytes = drawn(&parts, counts.links as usize, random);
    let (trees, plant) = (trees(sheet), Plant::of(&bytes));
    let items = || 0..plant.len();
    let keeps = |item| broken_axioms(&trees, &plant, item).is_empty();
    let breaks = |x, y| !broken_inclusions(&trees, plant.roles(x, y)).is_empty();
    let mut pairs = items().flat_map(|x| items().map(move |y| (x, y)));
    let mut set = vec![0; words_needed(counts)];
    match check_plant(sheet, &bytes, &mut set).expect("a plant without faults") {
        PlantCheck::Item(item) if keeps(item) => {
            let misdrawn = misdrawn(&parts, &plant, item);
            assert!(!misdrawn.is_empty() && misdrawn.iter().all(|m| !m.items.is_empty()));
            0
        }
        PlantCheck::Item(_) => 1,
        PlantCheck::Pair(from, to) => {
            assert!(items().all(keeps));
            assert_eq!(pairs.find(|&(x, y)| breaks(x, y)), Some((from, to)));
            2
        }
        PlantCheck::Holds => {
            assert!(items().all(keeps) && !pairs.any(|(x, y)| breaks(x, y)));
            3
        }
    }
}

#[test]
fn what_the_library_finds_has_a_reason() {
    let mut random = Random::seeded(96);
    let mut seen = [0; 4];
    for (sheet, ..) in JUDGED {
        seen[found_with_its_reason(&from_hex(sheet), &mut random)] += 1;
    }
    for turn in 0..3_000 {
        let sheet = match turn % 2 {
            0 => made_up::small_sheet(5, &mut random),
            _ => few_axioms::sheet(2 + turn % 5, &mut random),
        };
        seen[found_with_its_reason(&sheet, &mut random)] += 1;
    }
    assert!(seen.iter().all(|count| *count > 40), "{seen:?}");
}
