//! The call that draws a plant, against the independent reference, the check of a
//! plant and 002's Table 1; and what allocates the plant.

mod product;

use comparison::drawn::{suites, Expected};
use comparison::random::Random;
use comparison::suites::{report, times};
use comparison::worked::from_hex;
use comparison::{damage, plants, REFUSALS};
use lodhrussi::{draw_plant, drawn_plant, words_needed, Call};
use product::{refused, Product};

#[test]
fn fixed_sheets() {
    report("drawn, fixed sheets", &suites::fixed(&Product));
}

#[test]
fn limits() {
    report("drawn, 341 and 342 survivors", &suites::limits(&Product));
}

#[test]
fn outputs_of_each_length() {
    let tally = suites::each_length(&Product);
    report("drawn, outputs of each length", &tally);
}

#[test]
fn made_up_sheets() {
    let tally = suites::made_up_sheets(&Product);
    report("drawn, sheets with c + L up to 7", &tally);
}

#[test]
fn sheets_of_four_roles() {
    let tally = suites::sheets_of_four_roles(&Product);
    report("drawn, sheets with four links", &tally);
}

#[test]
fn sheets_of_few_labels() {
    let tally = suites::sheets_of_few_labels(&Product);
    report("drawn, sheets with c + L of 9 to 11", &tally);
}

#[test]
fn faulty_sheets() {
    let tally = suites::faulty_sheets(&Product);
    report("drawn, damaged sheets", &tally);
}

/// What allocates gives what is written into an output that is long enough.
#[test]
fn plants_of_their_own() {
    let mut random = Random::seeded(89);
    let fixed = [
        "",
        "03 00",
        "10 00",
        "10 03",
        "03 00 10 03",
        "01 02 20 00 01",
    ];
    let mut sheets: Vec<_> = fixed.map(from_hex).into();
    sheets.extend((0..times(200)).map(|turn| plants::sheet(turn as usize % 7, &mut random)));
    let mut drawn = 0;
    for sheet in sheets {
        let expected = Expected::of(sheet);
        let sheet = &expected.sheet;
        let mut set = vec![random.word(); expected.judged.len()];
        let plant = drawn_plant(sheet, &mut set).map_err(refused(Call::DrawPlant));
        assert!(plant == expected.plant, "{sheet:02X?}");
        drawn += u64::from(plant.is_ok());
        assert_eq!(set, expected.judged, "{sheet:02X?}");
        assert_eq!(drawn_plant(sheet, &mut []).unwrap_err().number, 10);
    }
    assert!(drawn >= 80, "{drawn}");
}

/// Asserts what holds of any sheet, set and output; answers the refusal's number.
fn assert_answered(sheet: &[u8], words: usize, room: usize, random: &mut Random) -> u64 {
    let before: Vec<u64> = (0..words).map(|_| random.word()).collect();
    let (mut set, mut out) = (before.clone(), vec![9; room]);
    let refusal = match draw_plant(sheet, &mut set, &mut out) {
        Ok(length) => {
            assert!(out[length..].iter().all(|&byte| byte == 9));
            let mut judged = before;
            assert!(lodhrussi::judge(sheet, &mut judged).is_ok_and(|judgement| judgement.met));
            assert_eq!(set, judged);
            return 0;
        }
        Err(refusal) => refusal,
    };
    assert!(out.iter().all(|&byte| byte == 9));
    let mut judged = before;
    match lodhrussi::judge(sheet, &mut judged) {
        Ok(judgement) => {
            let number = match judgement.survivors {
                0 => 26,
                1..=341 => 21,
                _ => 27,
            };
            assert_eq!((refusal.number, refusal.place), (number, 0));
        }
        Err(fault) => assert_eq!((refusal.number, refusal.place), (fault.number, fault.place)),
    }
    assert_eq!(set, judged);
    assert_eq!(refusal.call, Call::DrawPlant);
    assert!(refusal.explain(sheet).starts_with(&refusal.to_string()));
    refusal.number
}

#[test]
fn any_bytes_are_answered() {
    let mut random = Random::seeded(90);
    let mut answered = [0; REFUSALS];
    for turn in 0..times(6_000) {
        let sheet = match turn % 4 {
            0 => damage::damaged(&mut random),
            1 => damage::noise(&mut random),
            _ => plants::sheet(turn as usize % 8, &mut random),
        };
        let needed = lodhrussi::read(&sheet).map_or(1, words_needed).min(1_024);
        let words = random.pick(&[needed, needed, needed, needed + 1, needed - 1, 0]);
        let room = random.pick(&[0, 9, 100, 5_000, 20_000]);
        answered[assert_answered(&sheet, words, room, &mut random) as usize] += 1;
    }
    report("drawing, any bytes", &format!("{answered:?}"));
    for number in [0, 10, 21, 26, 27].into_iter().chain(1..=9).chain([16, 17]) {
        assert!(answered[number] >= 50, "{number} is rare: {answered:?}");
    }
}
