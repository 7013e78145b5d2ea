//! Role inclusions (document 02, N8): condition 7, its place in the order, and
//! the same sheets with axioms in their place.

use comparison::inclusions::{spelt_out, suites, without};
use comparison::random::Random;
use comparison::suites::report;
use comparison::{few_axioms, made_up, worked, Reference};
use reference::domino::{has, insert};
use reference::flat::flatten;
use reference::written::{Role, Written};
use reference::{open, read, strike, Conditions, Verdict};

/// The role sets of a sheet without parts that stay where it is opened.
fn opened(hex: &str) -> Vec<u64> {
    let sheet = worked::from_hex(hex);
    let counts = read(&sheet).expect(hex);
    assert_eq!(counts.marks(), 0, "{hex}");
    let role_sets = 1 << (2 * counts.links);
    let mut set = [0; 4];
    open(&sheet, &mut set).expect(hex);
    (0..role_sets).filter(|&roles| has(&set, roles)).collect()
}

#[test]
fn role_sets_that_meet_an_inclusion() {
    let rows: [(&str, &[u64]); 6] = [
        // of role 0 in itself, in its inverse, of its inverse in it
        ("10 00 21 00 00", &[0, 1, 2, 3]),
        ("10 00 11 00 21 00 01", &[0, 2, 3]),
        ("10 00 11 00 21 01 00", &[0, 1, 3]),
        // both, of which either would do once both sides are looked at
        ("10 00 11 00 21 00 01 21 01 00", &[0, 3]),
        // in a role that never holds, and in one that always does
        ("10 00 12 00 13 00 01 21 00 02", &[0, 2]),
        ("10 00 12 00 14 00 01 21 00 02", &[0, 1, 2, 3]),
    ];
    for (hex, role_sets) in rows {
        assert_eq!(opened(hex), role_sets, "{hex}");
    }
}

/// Whether a role holds where these hold.
fn holds(role: &Role, of: &impl Fn(usize, bool) -> bool) -> bool {
    match role {
        Role::Name(number) => of(*number, false),
        Role::Inverse(number) => of(*number, true),
        Role::Not(u) => !holds(u, of),
        Role::And(u, v) => holds(u, of) && holds(v, of),
        Role::Or(u, v) => holds(u, of) || holds(v, of),
    }
}

/// A domino opens precisely if it opens without the inclusions and its role set
/// meets each.
#[test]
fn opening_asks_each_inclusion_beside_the_rest() {
    let mut random = Random::seeded(51);
    let (mut asked, mut fewer) = (0, 0);
    for turn in 0..2_000 {
        let size = 1 + turn / 2 % 5;
        let sheet = match turn % 2 {
            0 => made_up::small_sheet(size, &mut random),
            _ => few_axioms::sheet(size, &mut random),
        };
        let written = Written::read(&sheet).expect("a sheet without faults");
        let conditions = Conditions::of(&flatten(&sheet).expect("a sheet without faults"));
        let without = Conditions::of(&flatten(&without(&sheet)).expect("the same parts"));
        assert_eq!(conditions.shape, without.shape);
        for number in 0..conditions.shape.dominoes() {
            let domino = conditions.shape.domino(number);
            let of =
                |role: usize, inverse| domino.roles >> (2 * role + usize::from(inverse)) & 1 == 1;
            let meets = written
                .inclusions
                .iter()
                .all(|i| !holds(&i.first, &of) || holds(&i.second, &of));
            let expected = without.is_initial(domino) && meets;
            assert_eq!(conditions.is_initial(domino), expected, "{sheet:02X?}");
            asked += u64::from(!written.inclusions.is_empty());
            fewer += u64::from(without.is_initial(domino) && !meets);
        }
    }
    let counts = format!("{asked} dominoes of sheets with inclusions, {fewer} out by one alone");
    report("opening", &counts);
    assert!(fewer >= 10_000);
}

/// Where condition 7 fails with another, that is told which comes first.
#[test]
fn the_order_of_the_conditions() {
    assert_eq!(Conditions::ORDER, [1, 2, 3, 7, 4, 5, 6]);
    let mut random = Random::seeded(52);
    let mut told_with_7 = [0; 8];
    for turn in 0..20_000 {
        let sheet = few_axioms::sheet(2 + turn % 4, &mut random);
        let conditions = Conditions::of(&flatten(&sheet).expect("a sheet without faults"));
        let shape = conditions.shape;
        let number = random.word() % shape.dominoes();
        let mut set: Vec<u64> = (0..shape.words())
            .map(|_| random.word() & random.word())
            .collect();
        insert(&mut set, number);
        let fails = |condition| conditions.fails(&set, shape.domino(number), condition);
        let first = Conditions::ORDER
            .into_iter()
            .find(|&condition| fails(condition));
        let verdict = first.map_or(Verdict::Kept, |condition| Verdict::Struck { condition });
        let seven = fails(7);
        let strike = strike(&sheet, &mut set, number).expect("a number that there is");
        assert_eq!(strike.verdict, verdict, "{sheet:02X?}");
        if let Some(condition) = first.filter(|_| seven) {
            told_with_7[usize::from(condition)] += 1;
        }
    }
    let [.., four, five, six, seven] = told_with_7;
    assert_eq!((four, five, six), (0, 0, 0));
    assert!(
        told_with_7[1..4].iter().all(|&told| told >= 20),
        "{told_with_7:?}"
    );
    assert!(seven >= 100, "{told_with_7:?}");
}

#[test]
fn axioms_in_their_place_judge_the_same() {
    let tally = suites::against_axioms(&Reference);
    report("reference, role inclusions", &tally);
}

/// An inclusion of role 0 in role 1, as drafters write it out by hand.
#[test]
fn an_axiom_in_the_place_of_an_inclusion() {
    let sheet = worked::from_hex("10 00 10 01 21 00 01");
    let spelt = spelt_out(&sheet).expect("few records");
    let expected = "10 00 10 01 12 01 13 00 02 02 08 03 04 01 20 06 05";
    assert_eq!(spelt.sheet, worked::from_hex(expected));
    assert_eq!(spelt.restrictions, [5]);
    assert_eq!(without(&sheet), worked::from_hex("10 00 10 01 13 00 01"));
    let shape = |sheet: &[u8]| {
        let counts = read(sheet).expect("a sheet without faults");
        counts.shape()
    };
    assert_eq!((shape(&sheet).parts, shape(&spelt.sheet).parts), (0, 1));
}
