//! The comparisons of one engine with the reference, on plants.

use super::damage::{damaged, likely_byte, noise};
use super::fault::faulty;
use super::made_up::{any, layers, of_survivors};
use super::pool::Order;
use super::{large_sheet, sheet, Case, Drawing, Ground, Pool, Tally, MOST};
use crate::hex::{from_hex, Hex};
use crate::lent::contents;
use crate::random::Random;
use crate::suites::times;
use crate::worked::S1;
use crate::{damage, Checking};
use reference::Refusal;

/// What parts and roles come to at most, but where more is said.
const SMALL: usize = 7;

/// Made-up plants of sheets whose parts and roles come to at most 7.
///
/// # Panics
///
/// Where engine and reference differ, or a sort of plant is rare.
pub fn made_up_plants(engine: &impl Checking) -> Tally {
    let mut random = Random::seeded(60);
    let mut tally = Tally::default();
    for turn in 0..times(8_000) as usize {
        let ground = Ground::small(turn % (SMALL + 1), &mut random);
        small_plants(engine, &mut tally, &ground, &mut random);
    }
    assert!(tally.holds.joined >= 25_000, "{tally}");
    assert!(tally.refused[10] >= 8_000, "{tally}");
    assert!(tally.exact >= 40_000 && tally.longer >= 40_000, "{tally}");
    let (files, individuals, pairs) = (&tally.files, &tally.individuals, &tally.pairs);
    assert!(files.mixed >= 15_000, "{tally}");
    assert!(
        files.repeating >= 30_000 && files.looping >= 40_000,
        "{tally}"
    );
    assert!(individuals.count >= 30_000, "{tally}");
    assert!(individuals.later >= 7_000, "{tally}");
    assert!(individuals.several >= 20_000, "{tally}");
    assert!(individuals.with_pair >= 6_000, "{tally}");
    assert!(pairs.count >= 14_000 && pairs.later >= 7_000, "{tally}");
    assert!(pairs.backward >= 2_500 && pairs.same >= 2_500, "{tally}");
    assert!(pairs.same_first >= 3_000, "{tally}");
    assert!(pairs.several >= 9_000, "{tally}");
    tally
}

/// Plants of a sheet, the later ones put together of those before; and sets that
/// are too short.
fn small_plants(
    engine: &impl Checking,
    tally: &mut Tally,
    ground: &Ground,
    random: &mut Random,
) -> Pool {
    let of = (&ground.sheet[..], ground.shape);
    tally.count_sheet(&ground.sheet, ground.counts);
    let mut pool = Pool::default();
    for sort in (0..Pool::SORTS).chain(0..Pool::SORTS) {
        let drawing = pool.small(sort, ground, random);
        let outcome = tally.compare(engine, of, &drawing.file(random), random);
        pool.keep(drawing, outcome);
    }
    let plants = [any(ground, 3, random).file(random), noise(ground, random)];
    for plant in plants {
        tally.compare_short(engine, of, &plant, random);
    }
    pool
}

/// Made-up plants of sheets whose parts and roles come to 8 to 12.
///
/// # Panics
///
/// Where engine and reference differ, or a sort of plant is rare.
pub fn large_sheets(engine: &impl Checking) -> Tally {
    let mut random = Random::seeded(61);
    let mut tally = Tally::default();
    for turn in 0..times(200) as usize {
        let sheet = match turn % 4 {
            3 => large_sheet(&mut random),
            turn => sheet(8 + turn % 2, &mut random),
        };
        let ground = Ground::of(sheet);
        small_plants(engine, &mut tally, &ground, &mut random);
        for case in Case::OF_NUMBERS {
            known_fault(engine, &mut tally, &ground, case, &mut random);
        }
    }
    assert!(tally.sizes[8..].iter().all(|&size| size >= 5), "{tally}");
    assert!(tally.holds.joined >= 350, "{tally}");
    assert!(tally.individuals.count >= 1_500, "{tally}");
    assert!(tally.pairs.count >= 200, "{tally}");
    let of_numbers = Case::OF_NUMBERS.map(|case| tally.of_case(case));
    assert!(of_numbers.iter().all(|&count| count >= 75), "{tally}");
    tally
}

/// Plants of more than 128 individuals.
///
/// # Panics
///
/// Where engine and reference differ, or a sort of plant is rare.
pub fn large_plants(engine: &impl Checking) -> Tally {
    let mut random = Random::seeded(62);
    let mut tally = Tally::default();
    for turn in 0..times(160) as usize {
        let ground = Ground::small(2 + turn % (SMALL - 1), &mut random);
        let pool = small_plants(engine, &mut tally, &ground, &mut random);
        let of = (&ground.sheet[..], ground.shape);
        for sort in 0..6 {
            if let Some(drawing) = large_plant(sort, &ground, &pool, &mut random) {
                let file = drawing.file(&mut random);
                let _ = tally.compare(engine, of, &file, &mut random);
            }
        }
    }
    assert!(tally.files.many >= 250 && tally.files.full >= 5, "{tally}");
    assert!(tally.holds.many >= 150, "{tally}");
    assert!(tally.individuals.past_many >= 25, "{tally}");
    assert!(tally.pairs.past_many >= 15, "{tally}");
    tally
}

/// A plant of more than 128 individuals: many that hold, with one or two of another
/// sort among them or last; layers; individuals that are joined throughout.
fn large_plant(sort: usize, ground: &Ground, pool: &Pool, random: &mut Random) -> Option<Drawing> {
    let order = random.pick(&[Order::Any, Order::BreakingLast]);
    let size = 128 + random.below(3) + random.pick(&[0, 64, 128, 200, 256]);
    match sort {
        0 => pool.beside(&pool.holding, size, order, random),
        1 => pool.beside(&pool.of_pairs, size, order, random),
        2 => pool.beside(&pool.of_individuals, size, order, random),
        3 => pool.nudged(ground, size, random),
        4 if random.one_in(4) => {
            let some = [&pool.holding[..], &pool.of_pairs, &pool.of_individuals];
            pool.full(random.pick(&some), random)
        }
        4 => {
            let dominoes = &ground.survivors.dominoes;
            let many = 3 * dominoes.len() > 128 && 3 * dominoes.len() <= MOST;
            many.then(|| layers(ground, dominoes).renumbered(random))
        }
        _ if random.one_in(4) => of_survivors(ground, &ground.survivors, size, random),
        _ => None,
    }
}

/// Files with one known fault before any other, each case as often as the others
/// where the sheet leaves room for it.
///
/// # Panics
///
/// Where the engine answers otherwise, or a case is rare.
pub fn faulty_plants(engine: &impl Checking) -> Tally {
    let mut random = Random::seeded(63);
    let mut tally = Tally::default();
    for turn in 0..times(2_000) as usize {
        let ground = Ground::of(sheet(turn % (SMALL + 1), &mut random));
        tally.count_sheet(&ground.sheet, ground.counts);
        for case in Case::ALL {
            known_fault(engine, &mut tally, &ground, case, &mut random);
        }
    }
    assert!(tally.cases.iter().all(|&count| count >= 300), "{tally}");
    tally
}

/// A file with a known fault before any other, if the sheet leaves room for it.
fn known_fault(
    engine: &impl Checking,
    tally: &mut Tally,
    ground: &Ground,
    case: Case,
    random: &mut Random,
) {
    let Some(file) = faulty(ground, case, random) else {
        return;
    };
    let refusal = Refusal {
        number: case.number(),
        place: 0,
    };
    let of = (&ground.sheet[..], ground.shape);
    let outcome = tally.compare(engine, of, &file, random);
    assert_eq!(outcome, Err(refusal), "{case:?} of {}", Hex(&ground.sheet));
    tally.count_case(case);
}

/// Damaged files and random bytes; of some files every beginning, and each byte
/// replaced.
///
/// # Panics
///
/// Where engine and reference differ, or a refusal is rare.
pub fn damaged_plants(engine: &impl Checking) -> Tally {
    let mut random = Random::seeded(64);
    let mut tally = Tally::default();
    for turn in 0..times(1_500) as usize {
        let ground = Ground::of(sheet(turn % (SMALL + 1), &mut random));
        tally.count_sheet(&ground.sheet, ground.counts);
        let of = (&ground.sheet[..], ground.shape);
        for sort in 0..Pool::SORTS {
            let drawing = Pool::default().small(sort, &ground, &mut random);
            let files = [damaged(&drawing, &mut random), noise(&ground, &mut random)];
            for file in files {
                let _ = tally.compare(engine, of, &file, &mut random);
            }
        }
        if turn % 4 == 0 {
            let file = any(&ground, 9, &mut random).file(&mut random);
            for at in 0..file.len() {
                let _ = tally.compare(engine, of, &file[..at], &mut random);
                let mut damaged = file.clone();
                damaged[at] = likely_byte(&mut random);
                let _ = tally.compare(engine, of, &damaged, &mut random);
            }
        }
    }
    for (number, often) in [(22, 15_000), (24, 8_000), (25, 400)] {
        assert!(tally.refused[number] >= often, "{number} is rare: {tally}");
    }
    assert!(tally.files.count >= 8_000, "{tally}");
    tally
}

/// Damaged sheets with any plants and sets.
///
/// # Panics
///
/// Where engine and reference differ, or a refusal is rare.
pub fn faulty_sheets(engine: &impl Checking) -> Tally {
    let mut random = Random::seeded(65);
    let mut tally = Tally::default();
    let any_ground = Ground::of(from_hex(S1));
    for turn in 0..times(24_000) {
        let sheet = match turn % 3 {
            0 => damage::noise(&mut random),
            _ => damage::damaged(&mut random),
        };
        if reference::read(&sheet).is_ok() {
            continue;
        }
        tally.sheets += 1;
        let plant = match random.below(3) {
            0 => noise(&any_ground, &mut random),
            _ => any(&any_ground, 4, &mut random).file(&mut random),
        };
        let words = random.below(6);
        let mut set = contents(words, &mut random);
        let _ = tally.call(engine, &sheet, &plant, &mut set);
    }
    for number in (1..=9).chain([16, 17]) {
        assert!(tally.refused[number] >= 350, "{number} is rare: {tally}");
    }
    tally
}
