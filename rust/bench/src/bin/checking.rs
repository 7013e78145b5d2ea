//! Times the check of drawn plants by the product and by the plain engine.

use bench::families::Family;
use bench::plain;
use bench::plants::{names, Plant};
use bench::timing::{calls_in, medians};
use comparison::random::Random;
use lodhrussi::PlantCheck;
use std::hint::black_box;
use std::time::Duration;

const BATCHES: usize = 7;
const BATCH: Duration = Duration::from_millis(20);

const MOST_ITEMS: u16 = 1024;

/// Parts and roles.
const SIZES: [(u8, u8); 7] = [(2, 1), (5, 1), (8, 1), (7, 2), (5, 4), (11, 1), (8, 4)];

fn main() {
    println!(
        "{:<32} {:>2} {:>2} {:>5} {:>7} {:<14} {:>11} {:>11} {:>6}",
        "check", "c", "L", "items", "conn.", "found", "product us", "plain us", "ratio"
    );
    for family in [Family::Met, Family::MetWithInclusions] {
        for (parts, roles) in SIZES {
            random(family, [parts, roles], MOST_ITEMS, 10_000);
        }
        for (parts, roles) in SIZES {
            without_names(family, [parts, roles]);
        }
    }
    all_connections();
    for items in [1, 2, 10, 100] {
        for (parts, roles) in [(2, 1), (8, 1), (5, 4), (8, 4)] {
            let connections = 2 * usize::from(items);
            random(
                Family::MetWithInclusions,
                [parts, roles],
                items,
                connections,
            );
        }
    }
}

/// So many items with random names, and so many random connections.
fn random(family: Family, [parts, roles]: [u8; 2], items: u16, connections: usize) {
    let sheet = family.sheet(parts, roles);
    let mut random = Random::seeded(90);
    let mut plant = Plant::default();
    plant.random_items(items, names(sheet.bytes()), &mut random);
    plant.random_connections(connections, items, roles, &mut random);
    measure(family.name(), sheet.bytes(), &plant);
}

/// The most items, without names, so that each keeps all axioms.
fn without_names(family: Family, [parts, roles]: [u8; 2]) {
    let sheet = family.sheet(parts, roles);
    let mut random = Random::seeded(91);
    let mut plant = Plant::default();
    plant.random_items(MOST_ITEMS, 0, &mut random);
    plant.random_connections(10_000, MOST_ITEMS, roles, &mut random);
    let name = format!("{}, no names", family.name());
    measure(&name, sheet.bytes(), &plant);
}

/// Each connection of the most items and roles, in order and in none.
fn all_connections() {
    const ROLES: u8 = 4;
    let family = Family::MetWithInclusions;
    let pairs = (0..MOST_ITEMS).flat_map(|from| (0..MOST_ITEMS).map(move |to| (from, to)));
    let each_role = |(from, to)| (0..ROLES).map(move |role| (from, to, role));
    let mut connections: Vec<_> = pairs.flat_map(each_role).collect();
    let mut random = Random::seeded(92);
    for order in ["in order", "in no order"] {
        for parts in [5, 8] {
            let sheet = family.sheet(parts, ROLES);
            let mut plant = Plant::default();
            plant.random_items(MOST_ITEMS, names(sheet.bytes()), &mut random);
            for &(from, to, role) in &connections {
                plant.connection(from, to, role);
            }
            let name = format!("{}, all {order}", family.name());
            measure(&name, sheet.bytes(), &plant);
        }
        random.shuffle(&mut connections);
    }
}

fn told(found: PlantCheck) -> String {
    match found {
        PlantCheck::Holds => "holds".into(),
        PlantCheck::Item(item) => format!("item {item}"),
        PlantCheck::Pair(from, to) => format!("pair {from} {to}"),
    }
}

fn measure(name: &str, sheet: &[u8], plant: &Plant) {
    let counts = lodhrussi::read(sheet).expect("a sheet without faults");
    let (items, connections, file) = (plant.items(), plant.connections(), plant.bytes());
    let mut by_product = vec![u64::MAX; lodhrussi::words_needed(counts)];
    let mut by_plain = by_product.clone();

    let found = lodhrussi::check_plant(sheet, file, &mut by_product).expect("no refusal");
    let expected = plain::check_plant(sheet, file, &mut by_plain).expect("no refusal");
    assert_eq!(found, expected, "{name}");
    assert_eq!(by_product, by_plain, "{name}");

    let mut product = || {
        let file = black_box(file);
        let _ = black_box(lodhrussi::check_plant(sheet, file, &mut by_product));
    };
    let mut plain = || {
        let file = black_box(file);
        let _ = black_box(plain::check_plant(sheet, file, &mut by_plain));
    };
    let calls = calls_in(BATCH, &mut plain);
    let [product, plain] = medians(BATCHES, calls, [&mut product, &mut plain]);
    println!(
        "{name:<32} {:>2} {:>2} {items:>5} {connections:>7} {:<14} {:>11.1} {:>11.1} {:>6.2}",
        counts.marks(),
        counts.links,
        told(found),
        product / 1e3,
        plain / 1e3,
        product / plain
    );
}
