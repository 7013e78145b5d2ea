//! Times the drawing of a plant by the product and by the plain engine.

use bench::families::Family;
use bench::plain;
use bench::timing::{calls_in, medians};
use comparison::worked::{from_hex, S1, S6};
use std::hint::black_box;
use std::time::Duration;

const BATCHES: usize = 7;
const BATCH: Duration = Duration::from_millis(20);

/// Sheets in hex.
const SHEETS: [(&str, &str); 9] = [
    // every t0 is only k1 . some k1 . t0; k0 within k1
    (
        "341 survivors",
        "03 00 10 01 07 01 00 08 01 02 20 00 03 10 00 21 05 01",
    ),
    // every t1 is some k0 . not t1; t0 is free
    ("S6 with a name more", "03 01 10 00 04 00 07 01 02 20 00 03"),
    ("one label, four roles", "10 03"),
    // everything is each of eight names
    (
        "one of 256 labels, four roles",
        "10 03 01 03 00 03 01 03 02 03 03 03 04 03 05 03 06 03 07 \
         20 01 02 20 01 03 20 01 04 20 01 05 20 01 06 20 01 07 20 01 08 20 01 09",
    ),
    ("four names", "03 03"),
    ("S6", S6),
    ("S1", S1),
    ("one name", "03 00"),
    ("S0", ""),
];

/// Parts and roles.
const SIZES: [(u8, u8); 6] = [(1, 1), (2, 1), (4, 1), (6, 1), (8, 1), (3, 2)];

fn main() {
    println!(
        "{:<32} {:>2} {:>2} {:>5} {:>7} {:>9} {:>11} {:>11} {:>11} {:>11} {:>6}",
        "drawing",
        "c",
        "L",
        "surv.",
        "conn.",
        "bytes",
        "judging us",
        "product us",
        "vector us",
        "plain us",
        "ratio"
    );
    for (name, sheet) in SHEETS {
        measure(name, &from_hex(sheet));
    }
    for family in [Family::Met, Family::MetWithInclusions] {
        for (parts, roles) in SIZES {
            measure(family.name(), family.sheet(parts, roles).bytes());
        }
    }
}

/// A sheet whose plant can be drawn; others have no line.
fn measure(name: &str, sheet: &[u8]) {
    let counts = lodhrussi::read(sheet).expect("a sheet without faults");
    let mut by_product = vec![u64::MAX; lodhrussi::words_needed(counts)];
    let Ok(expected) = lodhrussi::drawn_plant(sheet, &mut by_product) else {
        return;
    };
    let mut by_plain = by_product.clone();
    let (length, mut plant) = (expected.len(), vec![7; expected.len()]);
    assert_eq!(
        plain::draw_plant(sheet, &mut by_plain, &mut plant).ok(),
        Some(length),
        "{name}"
    );
    assert!(by_product == by_plain && plant == expected, "{name}");
    let survivors: u32 = by_plain.iter().map(|word| word.count_ones()).sum();

    let (mut judged, mut for_vector) = (by_plain.clone(), by_plain.clone());
    let mut judging = || {
        let _ = black_box(lodhrussi::judge(black_box(sheet), &mut judged));
    };
    let mut product_plant = plant.clone();
    let mut product = || {
        let sheet = black_box(sheet);
        let drawn = lodhrussi::draw_plant(sheet, &mut by_product, &mut product_plant);
        let _ = black_box(drawn);
    };
    let mut vector = || {
        let drawn = lodhrussi::drawn_plant(black_box(sheet), &mut for_vector);
        drop(black_box(drawn));
    };
    let mut plain = || {
        let sheet = black_box(sheet);
        let _ = black_box(plain::draw_plant(sheet, &mut by_plain, &mut plant));
    };
    let calls = calls_in(BATCH, &mut plain);
    let runs: [&mut dyn FnMut(); 4] = [&mut judging, &mut product, &mut vector, &mut plain];
    let [judging, product, vector, plain] = medians(BATCHES, calls, runs);
    println!(
        "{name:<32} {:>2} {:>2} {survivors:>5} {:>7} {length:>9} {:>11.1} {:>11.1} {:>11.1} {:>11.1} {:>6.2}",
        counts.marks(),
        counts.links,
        (length - 9 * survivors as usize) / 6,
        judging / 1e3,
        product / 1e3,
        vector / 1e3,
        plain / 1e3,
        product / plain
    );
}
