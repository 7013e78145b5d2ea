//! What settling leaves has nothing defective, and is the union of all subsets
//! that have nothing defective.

use comparison::random::Random;
use comparison::suites::report;
use comparison::{few_axioms, made_up, worked};
use reference::domino::{has, insert};
use reference::flat::flatten;
use reference::{judge, open, settle, Conditions};

const SHEETS: usize = 3_000;

/// The most members whose subsets are gone through.
const MEMBERS: usize = 10;

fn members(conditions: &Conditions, set: &[u64]) -> Vec<u64> {
    let all = 0..conditions.shape.dominoes();
    all.filter(|&number| has(set, number)).collect()
}

fn is_stable(conditions: &Conditions, set: &[u64]) -> bool {
    let numbers = members(conditions, set);
    let mut dominoes = numbers
        .iter()
        .map(|&number| conditions.shape.domino(number));
    dominoes.all(|domino| conditions.defect(set, domino).is_none())
}

/// The union of all stable subsets of some dominoes.
fn union_of_stable(conditions: &Conditions, members: &[u64]) -> Vec<u64> {
    let mut union = vec![0; conditions.shape.words()];
    for choice in 0..1_u64 << members.len() {
        let mut subset = vec![0; union.len()];
        for (at, &number) in members.iter().enumerate() {
            if choice >> at & 1 == 1 {
                insert(&mut subset, number);
            }
        }
        if is_stable(conditions, &subset) {
            for (word, more) in union.iter_mut().zip(subset) {
                *word |= more;
            }
        }
    }
    union
}

/// Settles a set; answers whether its subsets were gone through.
fn check(sheet: &[u8], set: &[u64]) -> bool {
    let conditions = Conditions::of(&flatten(sheet).expect("a sheet without faults"));
    let before = members(&conditions, set);
    let mut settled = set.to_vec();
    let survivors = settle(sheet, &mut settled).expect("a set long enough");
    let after = members(&conditions, &settled);
    assert_eq!(survivors, after.len() as u64);
    assert!(after.iter().all(|&number| has(set, number)), "{sheet:02X?}");
    assert!(is_stable(&conditions, &settled), "{sheet:02X?}");
    if before.len() > MEMBERS {
        return false;
    }
    let largest = union_of_stable(&conditions, &before);
    assert_eq!(settled, largest, "{sheet:02X?}");
    true
}

/// Whether a judged set is the settled initial one; then checks that.
fn check_judged(sheet: &[u8]) -> bool {
    let conditions = Conditions::of(&flatten(sheet).expect("a sheet without faults"));
    let mut set = vec![0; conditions.shape.words()];
    open(sheet, &mut set).expect("a set long enough");
    for number in 0..conditions.shape.dominoes() {
        let domino = conditions.shape.domino(number);
        assert_eq!(has(&set, number), conditions.is_initial(domino));
    }
    let mut judged = set.clone();
    judge(sheet, &mut judged).expect("a set long enough");
    let mut settled = set.clone();
    settle(sheet, &mut settled).expect("a set long enough");
    assert_eq!(judged, settled, "{sheet:02X?}");
    check(sheet, &set)
}

#[test]
fn settling_leaves_the_largest() {
    let mut random = Random::seeded(12);
    let mut gone_through = 0;
    let mut survived = 0;
    for (hex, ..) in worked::JUDGED {
        check_judged(&worked::from_hex(hex));
    }
    for turn in 0..SHEETS {
        let size = 1 + turn / 2 % 5;
        let sheet = match turn % 2 {
            0 => made_up::small_sheet(size, &mut random),
            _ => few_axioms::sheet(size, &mut random),
        };
        gone_through += u32::from(check_judged(&sheet));

        // Part of the judged set, so that something can stay, and a few more.
        let conditions = Conditions::of(&flatten(&sheet).expect("a sheet without faults"));
        let dominoes = conditions.shape.dominoes();
        let mut judged = vec![0; conditions.shape.words()];
        judge(&sheet, &mut judged).expect("a set long enough");
        let mut numbers = members(&conditions, &judged);
        random.shuffle(&mut numbers);
        let mut set = vec![0; judged.len()];
        for number in numbers.into_iter().take(3) {
            insert(&mut set, number);
            let converse = conditions.shape.domino(number).converse();
            insert(&mut set, conditions.shape.number(converse));
        }
        for _ in 0..4 {
            insert(&mut set, random.word() % dominoes);
        }
        gone_through += u32::from(check(&sheet, &set));
        survived += u32::from(settle(&sheet, &mut set) != Ok(0));
    }
    let counts = format!("all subsets of {gone_through} sets; {survived} sets left some domino");
    report("settling", &counts);
    assert!(gone_through > SHEETS as u32 && survived > 100);
}
