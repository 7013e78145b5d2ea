//! Times judging by the product and by the plain engines, by sweeps over dominoes and
//! by labels; and striking by the product and by the plain engine.

use bench::families::Family;
use bench::plain;
use bench::timing::{calls_in, medians, medians_of};
use std::hint::black_box;
use std::time::Duration;

const BATCHES: usize = 7;
const BATCH: Duration = Duration::from_millis(20);

fn main() {
    judging();
    println!();
    striking();
}

fn judging() {
    println!(
        "{:<20} {:>2} {:>2} {:>5} {:>9} {:>9} {:>11} {:>11} {:>11} {:>8} {:>8}",
        "judge",
        "c",
        "L",
        "c + L",
        "opening",
        "survivors",
        "product us",
        "sweeps us",
        "labels us",
        "/ sweeps",
        "/ labels"
    );
    for (family, roles) in Family::JUDGED {
        for &roles in roles {
            for size in (roles + 1).max(3)..=12 {
                judge(family, size - roles, roles);
            }
        }
    }
}

fn judge(family: Family, parts: u8, roles: u8) {
    let sheet = family.sheet(parts, roles);
    let sheet = sheet.bytes();
    let size = u32::from(parts + roles);
    let mut by_product = vec![0; 4_usize.pow(size).div_ceil(64)];
    let mut by_sweeps = by_product.clone();
    let mut by_labels = by_product.clone();

    let judged = lodhrussi::judge(sheet, &mut by_product).expect("the product judges the sheet");
    let expected = plain::judge(sheet, &mut by_sweeps).expect("the plain engine judges the sheet");
    let numbers = (judged.opening, judged.survivors, judged.met);
    assert_eq!(
        numbers,
        (expected.opening, expected.survivors, expected.met)
    );
    assert_eq!(by_product, by_sweeps);
    assert_eq!(plain::judge_by_labels(sheet, &mut by_labels), Ok(expected));
    assert_eq!(by_labels, by_sweeps);

    let mut product = || {
        let _ = black_box(lodhrussi::judge(black_box(sheet), &mut by_product));
    };
    let mut sweeps = || {
        let _ = black_box(plain::judge(black_box(sheet), &mut by_sweeps));
    };
    let mut labels = || {
        let _ = black_box(plain::judge_by_labels(black_box(sheet), &mut by_labels));
    };
    let runs: [&mut dyn FnMut(); 3] = [&mut product, &mut sweeps, &mut labels];
    let runs = runs.map(|run| (calls_in(BATCH, run), run));
    let [product, sweeps, labels] = medians_of(BATCHES, runs);
    println!(
        "{:<20} {parts:>2} {roles:>2} {size:>5} {:>9} {:>9} {:>11.1} {:>11.1} {:>11.1} {:>8.2} {:>8.2}",
        family.name(),
        judged.opening,
        judged.survivors,
        product / 1e3,
        sweeps / 1e3,
        labels / 1e3,
        product / sweeps,
        product / labels
    );
}

fn striking() {
    println!(
        "{:<20} {:>2} {:>2} {:>5} {:>17} {:>15} {:>6}",
        "strike", "c", "L", "c + L", "product a second", "plain a second", "ratio"
    );
    for (parts, roles) in [
        (2, 1),
        (4, 1),
        (6, 1),
        (5, 2),
        (8, 1),
        (5, 4),
        (11, 1),
        (8, 4),
    ] {
        strike(parts, roles);
    }
}

/// Strikes of numbers all over an opened set. A strike may change the set, the
/// same way for both.
fn strike(parts: u8, roles: u8) {
    let sheet = Family::Met.sheet(parts, roles);
    let sheet = sheet.bytes();
    let size = u32::from(parts + roles);
    let dominoes = 4_u64.pow(size);
    let mut by_product = vec![0; dominoes.div_ceil(64) as usize];
    plain::open(sheet, &mut by_product).expect("the plain engine opens the sheet");
    let mut by_plain = by_product.clone();

    // An odd step goes through all numbers.
    let step = dominoes / 3 * 2 + 1;
    let mut next = 0;
    let mut product = || {
        next = (next + step) % dominoes;
        let _ = black_box(lodhrussi::strike(sheet, &mut by_product, next));
    };
    let mut next = 0;
    let mut plain = || {
        next = (next + step) % dominoes;
        let _ = black_box(plain::strike(sheet, &mut by_plain, next));
    };
    let [product, plain] = medians(BATCHES, 10_000, [&mut product, &mut plain]);
    assert_eq!(by_product, by_plain);
    println!(
        "{:<20} {parts:>2} {roles:>2} {size:>5} {:>17.0} {:>15.0} {:>6.2}",
        "met, opened",
        1e9 / product,
        1e9 / plain,
        product / plain
    );
}
