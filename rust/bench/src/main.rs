//! Times reading a full sheet by the product and by the reference.

use bench::sheets::{self, Sheet};
use bench::timing::medians;
use std::hint::black_box;

const BATCHES: usize = 301;
const CALLS: u32 = 200;

/// The counts of parts by kind, then of roles.
fn by_product(sheet: &[u8]) -> [u64; 5] {
    let counts = lodhrussi::read(sheet).expect("the product accepts the sheet");
    [
        counts.traits,
        counts.fresh,
        counts.some,
        counts.only,
        counts.links,
    ]
}

fn by_reference(sheet: &[u8]) -> [u64; 5] {
    let counts = reference::read(sheet).expect("the reference accepts the sheet");
    [
        counts.traits,
        counts.fresh,
        counts.some,
        counts.only,
        counts.links,
    ]
}

fn main() {
    println!(
        "{:<24} {:>5} {:>3} {:>12} {:>14} {:>7}",
        "sheet", "bytes", "c", "product ns", "reference ns", "ratio"
    );
    for (name, sheet) in sheets::all() {
        measure(name, &sheet);
    }
}

fn measure(name: &str, sheet: &Sheet) {
    let bytes = sheet.bytes();
    let counts = by_reference(bytes);
    assert_eq!(by_product(bytes), counts, "{name}");
    let mut product = || {
        black_box(by_product(black_box(bytes)));
    };
    let mut reference = || {
        black_box(by_reference(black_box(bytes)));
    };
    let [product, reference] = medians(BATCHES, CALLS, [&mut product, &mut reference]);
    println!(
        "{name:<24} {:>5} {:>3} {product:>12.0} {reference:>14.0} {:>7.2}",
        bytes.len(),
        counts[..4].iter().sum::<u64>(),
        product / reference
    );
}
