//! The check of a plant: refusals in their order, and what no call may touch or
//! depend on.

use comparison::random::Random;
use comparison::suites::{report, times};
use comparison::worked::{from_hex, S6};
use comparison::{damage, few_axioms, made_up, REFUSALS};
use lodhrussi::{check_plant, Call, PlantCheck, Refusal};

/// The words that a set of a sheet without faults takes.
fn words_needed(sheet: &[u8]) -> usize {
    let counts = lodhrussi::read(sheet).expect("a sheet without faults");
    lodhrussi::words_needed(counts)
}

/// What a set holds before a call: nothing, all, or anything.
fn contents(words: usize) -> [Vec<u64>; 3] {
    let mut random = Random::seeded(21);
    let any = (0..words).map(|_| random.word()).collect();
    [vec![0; words], vec![u64::MAX; words], any]
}

/// Asserts a refusal, which keeps the whole set.
#[track_caller]
fn assert_refused(sheet: &[u8], plant: &[u8], words: usize, (number, place): (u64, u64)) {
    for before in contents(words) {
        let mut set = before.clone();
        let refusal = Refusal {
            call: Call::CheckPlant,
            number,
            place,
        };
        let answer = check_plant(sheet, plant, &mut set);
        assert_eq!(answer, Err(refusal), "{sheet:02X?} {plant:02X?}");
        assert_eq!(set, before, "{sheet:02X?} {plant:02X?}");
    }
}

/// The sheet's refusals, then 10, then the plant's.
#[test]
fn the_sheet_comes_before_the_set_and_the_set_before_the_plant() {
    let plants = ["40 00 00", "42", ""].map(from_hex);
    for plant in &plants {
        assert_refused(&from_hex("04 00"), plant, 0, (5, 1));
        assert_refused(&from_hex("03 00 04 00 05 01 01"), plant, 9, (7, 6));
        assert_refused(&from_hex("03 0B 10 00"), plant, 9, (9, 0));
        assert_refused(&from_hex(S6), plant, 3, (10, 0));
        assert_refused(&from_hex("03 0B"), plant, 4_096, (10, 0));
    }
}

/// Wherever a plant is cut off, it is refused unless that is between two records.
#[test]
fn plants_cut_at_every_byte() {
    let (sheet, mut cuts) = (from_hex(S6), 0);
    let records = [
        "40 01 00",
        "40 04 00",
        "41 00 00 01 00 00",
        "40 00 00",
        "41 02 00 02 00 00",
    ];
    let records = records.map(from_hex);
    let plant = records.concat();
    let mut between = vec![0];
    between.extend(records.iter().scan(0, |end, record| {
        *end += record.len();
        Some(*end)
    }));
    for end in 0..plant.len() {
        match end {
            0 => assert_refused(&sheet, &[], 4, (25, 0)),
            _ if between.contains(&end) => {
                assert!(check_plant(&sheet, &plant[..end], &mut [0; 4]).is_ok())
            }
            _ => assert_refused(&sheet, &plant[..end], 4, (22, 0)),
        }
        cuts += 1;
    }
    assert_eq!(cuts, 21);
}

/// The bits that an item of the sheet may have, and how many roles there are.
fn drawn(sheet: &[u8]) -> (u16, u8) {
    let counts = lodhrussi::read(sheet).expect("a sheet without faults");
    let mut list = vec![0; 3 * counts.marks() as usize];
    lodhrussi::list_marks(sheet, &mut list).expect("a list that is long enough");
    let parts = list.chunks_exact(3).enumerate();
    let names = parts.filter(|(_, part)| part[0] < 2);
    let bits = names.fold(0, |bits, (number, _)| bits | 1 << number);
    (bits, counts.links as u8)
}

/// Up to five items, and connections between earlier ones, of a sheet without
/// faults.
fn made_up_plant(sheet: &[u8], random: &mut Random) -> Vec<u8> {
    let (bits, roles) = drawn(sheet);
    let mut plant = vec![];
    let often = random.below(4);
    for items in 1..=1 + random.byte_below(5) {
        let [low, high] = (random.word() as u16 & bits).to_le_bytes();
        plant.extend([0x40, low, high]);
        for _ in 0..often * usize::from(roles.min(1)) {
            let mut end = || random.byte_below(usize::from(items));
            let (from, to) = (end(), end());
            let role = random.byte_below(usize::from(roles));
            plant.extend([0x41, from, 0, to, 0, role]);
        }
    }
    plant
}

/// A sheet without faults.
fn made_up_sheet(random: &mut Random) -> Vec<u8> {
    let size = 1 + random.below(6);
    if random.one_in(3) {
        made_up::small_sheet(size, random)
    } else {
        few_axioms::sheet(size, random)
    }
}

#[test]
fn what_the_set_held_before_does_not_matter() {
    let mut random = Random::seeded(22);
    let mut found = [0; 3];
    for _ in 0..times(4_000) {
        let sheet = made_up_sheet(&mut random);
        let plant = made_up_plant(&sheet, &mut random);
        let needed = words_needed(&sheet);
        let outcomes = contents(needed + 2).map(|mut set| {
            let beyond = set[needed..].to_vec();
            let found = check_plant(&sheet, &plant, &mut set);
            assert_eq!(set[needed..], beyond);
            set.truncate(needed);
            (found, set)
        });
        let [first, others @ ..] = &outcomes;
        assert!(
            others.iter().all(|other| other == first),
            "{sheet:02X?} {plant:02X?}"
        );
        found[match first.0 {
            Ok(PlantCheck::Holds) => 0,
            Ok(PlantCheck::Item(_)) => 1,
            Ok(PlantCheck::Pair(..)) => 2,
            Err(refusal) => panic!("{refusal}: {sheet:02X?} {plant:02X?}"),
        }] += 1;
    }
    report("checking, holds, item, pair", &format!("{found:?}"));
    assert!(found.iter().all(|&count| count >= 100), "{found:?}");
}

#[test]
fn judging_keeps_the_dominoes_of_what_holds() {
    let mut random = Random::seeded(23);
    let (mut held, mut dominoes) = (0, 0);
    for _ in 0..times(4_000) {
        let sheet = made_up_sheet(&mut random);
        let plant = made_up_plant(&sheet, &mut random);
        let mut set = vec![0; words_needed(&sheet)];
        let found = check_plant(&sheet, &plant, &mut set).expect("a plant without faults");
        let mut judged = vec![0; set.len()];
        let judgement = lodhrussi::judge(&sheet, &mut judged).expect("a set that is long enough");
        if found == PlantCheck::Holds {
            assert!(judgement.met, "{sheet:02X?} {plant:02X?}");
            for (word, judged) in set.iter().zip(&judged) {
                assert_eq!(word & !judged, 0, "{sheet:02X?} {plant:02X?}");
                dominoes += word.count_ones();
            }
            held += 1;
        }
    }
    report(
        "checking, plants that hold",
        &format!("{held} with {dominoes} dominoes"),
    );
    assert!(held >= 500);
}

/// Records of a plant, or nearly, of any sheet.
fn any_plant(random: &mut Random) -> Vec<u8> {
    let mut plant = vec![];
    for _ in 0..random.below(8) {
        let small = |random: &mut Random| random.byte_below(3);
        match random.below(16) {
            0 => plant.push(random.byte()),
            1..=8 => plant.extend([0x40, small(random), 0]),
            9 => plant.extend([0x40, random.byte(), random.byte()]),
            _ => {
                let (from, to, role) = (small(random), small(random), small(random));
                plant.extend([0x41, from, 0, to, 0, role / 2]);
            }
        }
    }
    plant
}

/// Asserts what holds of any sheet and any plant; answers the refusal's number.
fn assert_answered(sheet: &[u8], plant: &[u8], before: &[u64]) -> u64 {
    let mut set = before.to_vec();
    let found = check_plant(sheet, plant, &mut set);
    let refusal = match (found, lodhrussi::read(sheet)) {
        (Ok(found), Ok(counts)) => {
            let needed = lodhrussi::words_needed(counts);
            assert_eq!(set[needed..], before[needed..]);
            let items = plant.len() / 3;
            assert!(match found {
                PlantCheck::Holds => true,
                PlantCheck::Item(item) => item < items,
                PlantCheck::Pair(from, to) => from < items && to < items,
            });
            return 0;
        }
        (Ok(_), Err(fault)) => panic!("{fault}: {sheet:02X?}"),
        (Err(refusal), Ok(_)) => {
            assert_eq!(refusal.place, 0);
            refusal
        }
        (Err(refusal), Err(fault)) => {
            assert_eq!((refusal.number, refusal.place), (fault.number, fault.place));
            refusal
        }
    };
    assert_eq!(set, before);
    assert_eq!(refusal.call, Call::CheckPlant);
    assert!(refusal.explain(sheet).starts_with(&refusal.to_string()));
    refusal.number
}

#[test]
fn any_bytes_are_answered() {
    let mut random = Random::seeded(24);
    let mut answered = [0; REFUSALS];
    for turn in 0..times(30_000) {
        let sheet = match turn % 4 {
            0 => damage::damaged(&mut random),
            1 => damage::noise(&mut random),
            _ => made_up_sheet(&mut random),
        };
        let plant = match turn % 3 {
            0 => random.bytes(turn as usize % 29),
            _ => any_plant(&mut random),
        };
        let words = random.pick(&[0, 1, 1_024, 4_096]);
        let before: Vec<u64> = (0..words).map(|_| random.word()).collect();
        answered[assert_answered(&sheet, &plant, &before) as usize] += 1;
    }
    report("checking, any bytes", &format!("{answered:?}"));
    for number in [0, 10, 22, 24, 25].into_iter().chain(1..=9).chain([16, 17]) {
        assert!(answered[number] >= 50, "{number} is rare: {answered:?}");
    }
}
