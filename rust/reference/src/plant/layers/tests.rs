//! Plants worked out by hand, and what comes first.

use super::*;
use crate::domino::insert;

/// Role 0 within role 1.
const WITHIN: &[u8] = &[0x10, 0x00, 0x10, 0x01, 0x21, 0x00, 0x01];

/// Everything is joined by role 0 only to what is everything and everything. Part 0
/// is that, and part 1 the fresh name of what all is joined to.
const ONLY: &[u8] = &[
    0x01, 0x10, 0x00, 0x05, 0x00, 0x00, 0x08, 0x01, 0x02, 0x20, 0x00, 0x03,
];

/// From, to, and the role.
type Joined = (u16, u16, u8);

/// The bytes of one layer's individuals, three times.
fn layers(layer: &[u16]) -> Vec<u8> {
    let record = |bits: u16| [0x40, bits as u8, (bits >> 8) as u8];
    layer.repeat(3).into_iter().flat_map(record).collect()
}

/// The bytes of connections.
fn joined(connections: &[Joined]) -> Vec<u8> {
    let record = |&(from, to, role): &Joined| {
        let [from, to] = [from, to].map(u16::to_le_bytes);
        [0x41, from[0], from[1], to[0], to[1], role]
    };
    connections.iter().flat_map(record).collect()
}

/// The bytes of connections by role 0 from each of some individuals to others.
fn joined_by_role_0(rows: &[(u16, &[u16])]) -> Vec<u8> {
    let row = |&(from, ends): &(u16, &[u16])| {
        let connections: Vec<Joined> = ends.iter().map(|&to| (from, to, 0)).collect();
        joined(&connections)
    };
    rows.iter().flat_map(row).collect()
}

/// Asserts what is written, that the set has the dominoes of these numbers, and
/// that all else is kept; and with less room a refusal that leaves the same set.
#[track_caller]
fn assert_drawn(sheet: &[u8], numbers: &[u64], plant: &[u8]) {
    let words = flatten(sheet).expect("a sheet").shape().words();
    let mut judged = vec![7; words + 2];
    judged[..words].fill(0);
    for &number in numbers {
        insert(&mut judged, number);
    }
    let mut set = vec![7; words + 2];
    let mut out = vec![9; plant.len() + 3];
    assert_eq!(draw_plant(sheet, &mut set, &mut out), Ok(plant.len()));
    assert_eq!(out, [plant, &[9; 3]].concat());
    assert_eq!(set, judged);
    for room in [0, 1, plant.len() - 1] {
        assert_refused(sheet, room, 21, &judged);
    }
}

/// Asserts a refusal whose place is 0, that the output is kept, and what the set
/// has then.
#[track_caller]
fn assert_refused(sheet: &[u8], room: usize, number: u64, after: &[u64]) {
    let mut set = vec![7; after.len()];
    let mut out = vec![9; room];
    let refusal = Refusal { number, place: 0 };
    assert_eq!(draw_plant(sheet, &mut set, &mut out), Err(refusal));
    assert_eq!(out, vec![9; room]);
    assert_eq!(set, after);
}

/// The plant of a sheet of four words or less.
fn drawn_of(sheet: &[u8]) -> Vec<u8> {
    drawn_plant(sheet, &mut [7; 4]).expect("a sheet that is met")
}

/// The empty label; then two labels, and the right one of each of four dominoes.
#[test]
fn without_roles() {
    assert_drawn(&[], &[0], &layers(&[0]));
    assert_drawn(&[0x03, 0x00], &[0, 1, 2, 3], &layers(&[0, 1, 0, 1]));
}

/// Each of four role sets goes with each: 1 and 3 have the role, 2 and 3 its inverse.
#[test]
fn one_role() {
    let connections = joined_by_role_0(&[
        (0, &[5, 7]),
        (1, &[5, 7]),
        (2, &[5, 7, 8, 9, 10, 11]),
        (3, &[5, 7, 8, 9, 10, 11]),
        (4, &[9, 11]),
        (5, &[9, 11]),
        (6, &[0, 1, 2, 3, 9, 11]),
        (7, &[0, 1, 2, 3, 9, 11]),
        (8, &[1, 3]),
        (9, &[1, 3]),
        (10, &[1, 3, 4, 5, 6, 7]),
        (11, &[1, 3, 4, 5, 6, 7]),
    ]);
    let plant = [layers(&[0; 4]), connections].concat();
    assert_eq!(plant.len(), 324);
    assert_drawn(&[0x10, 0x00], &[0, 1, 2, 3], &plant);
    // everything is some of role 0, and only nothing of role 1: two parts that no
    // individual is drawn with, and a role that joins nothing
    let restrictions = [
        0x01, 0x10, 0x00, 0x10, 0x01, 0x02, 0x07, 0x01, 0x00, 0x20, 0x00, 0x04, 0x08, 0x02, 0x03,
        0x20, 0x00, 0x06,
    ];
    assert_drawn(&restrictions, &[195, 199, 203, 207], &plant);
}

/// Each label has part 0. By part 1 on the left, the role set, part 1 on the right
/// the survivors are 0: no, none, no; 1: no, none, yes; 2: no, role, yes; 3: yes,
/// none, no; 4: yes, none, yes; 5: yes, role, yes; 6: yes, inverse, no; 7: yes,
/// inverse, yes; 8: yes, both, yes.
#[test]
fn labels_that_meet() {
    let connections = joined_by_role_0(&[
        (0, &[11]),
        (1, &[14, 17]),
        (2, &[14, 17]),
        (3, &[11]),
        (4, &[14, 17]),
        (5, &[14, 17]),
        (6, &[11, 19, 20, 22, 23, 25, 26]),
        (7, &[14, 17, 19, 20, 22, 23, 25, 26]),
        (8, &[14, 17, 19, 20, 22, 23, 25, 26]),
        (9, &[20]),
        (10, &[23, 26]),
        (11, &[23, 26]),
        (12, &[20]),
        (13, &[23, 26]),
        (14, &[23, 26]),
        (15, &[1, 2, 4, 5, 7, 8, 20]),
        (16, &[1, 2, 4, 5, 7, 8, 23, 26]),
        (17, &[1, 2, 4, 5, 7, 8, 23, 26]),
        (18, &[2]),
        (19, &[5, 8]),
        (20, &[5, 8]),
        (21, &[2]),
        (22, &[5, 8]),
        (23, &[5, 8]),
        (24, &[2, 10, 11, 13, 14, 16, 17]),
        (25, &[5, 8, 10, 11, 13, 14, 16, 17]),
        (26, &[5, 8, 10, 11, 13, 14, 16, 17]),
    ]);
    let plant = [layers(&[0, 2, 2, 0, 2, 2, 0, 2, 2]), connections].concat();
    assert_drawn(ONLY, &[17, 19, 23, 49, 51, 55, 57, 59, 63], &plant);
}

/// Nine role sets: 0, 4 (role 1), 5 (both roles), 8 (the inverse of role 1), 10 (both
/// inverses), 12, 13, 14, 15.
#[test]
fn two_roles() {
    let plant = drawn_of(WITHIN);
    let (individuals, connections) = plant.split_at(3 * 27);
    assert_eq!(individuals, layers(&[0; 9]));
    assert_eq!(connections.len(), 6 * 27 * (9 + 9));
    let of = |individual: u16| {
        let from = individual.to_le_bytes();
        let own = connections.chunks_exact(6).filter(|c| c[1..3] == from);
        own.collect::<Vec<_>>().concat()
    };
    let ahead = [
        (0, 10, 1),
        (0, 11, 0),
        (0, 11, 1),
        (0, 14, 1),
        (0, 15, 0),
        (0, 15, 1),
        (0, 16, 1),
        (0, 17, 0),
        (0, 17, 1),
    ];
    assert_eq!(of(0), joined(&ahead));
    // the fourth of the middle layer: back to all, then ahead
    let mut both_ways: Vec<Joined> = (0..9).map(|to| (12, to, 1)).collect();
    both_ways.extend(ahead.map(|(_, to, role)| (12, to + 9, role)));
    assert_eq!(of(12), joined(&both_ways));
}

/// Three names and a role: 256 survivors. The first has no names on its right, and of
/// those with none on their left 8 to 15 and 24 to 31 have the role; the last has all
/// three on its left and the inverse, and the last with all three on their right are
/// 247 and 255.
#[test]
fn numbers_of_two_bytes() {
    let sheet = [0x03, 0x02, 0x10, 0x00];
    let plant = drawn_plant(&sheet, &mut [7; 4]).expect("a sheet that is met");
    assert_eq!(plant.len(), 3 * 768 + 6 * 768 * 32);
    let connections = &plant[3 * 768..];
    assert!(connections.starts_with(&joined(&[(0, 264, 0), (0, 265, 0)])));
    assert!(connections.ends_with(&joined(&[(767, 503, 0), (767, 511, 0)])));
}

/// Of nine names nothing has one of the first eight, and all has the last.
#[test]
fn bits_of_the_second_byte() {
    let mut sheet: Vec<u8> = (0..9).flat_map(|name| [0x03, name]).collect();
    sheet.extend([0x01, 0x02]);
    for name in 0..8 {
        sheet.extend([0x20, name, 10]);
    }
    sheet.extend([0x20, 9, 8]);
    let only = 0x100 << 9 | 0x100;
    assert_drawn(&sheet, &[only], &layers(&[0x100]));
}

#[test]
fn lengths_of_s1_and_s6() {
    let s1 = [
        0x01, 0x10, 0x00, 0x03, 0x00, 0x07, 0x01, 0x02, 0x20, 0x00, 0x03,
    ];
    let s6 = [
        0x03, 0x00, 0x10, 0x00, 0x04, 0x00, 0x07, 0x01, 0x02, 0x20, 0x00, 0x03,
    ];
    assert_eq!(drawn_of(&s1).len(), 2_448);
    assert_eq!(drawn_of(&s6).len(), 25_569);
}

/// Everything is some of role 0 with name 0, and nothing has name 0: not met. Five
/// names: 1,024 dominoes.
#[test]
fn too_few_and_too_many() {
    let unmet = [
        0x01, 0x10, 0x00, 0x03, 0x00, 0x07, 0x01, 0x02, 0x20, 0x00, 0x03, 0x02, 0x20, 0x02, 0x05,
    ];
    let mut all = vec![u64::MAX; 16];
    all.push(7);
    for room in [0, 9, 400] {
        assert_refused(&unmet, room, 26, &[0, 7]);
        assert_refused(&[0x03, 0x04], room, 27, &all);
    }
}

#[test]
fn refusals_of_judging_come_first() {
    for room in [0, 9, 400] {
        let mut out = vec![9; room];
        let mut refused = |sheet: &[u8], set: &mut [u64]| {
            let before = set.to_vec();
            let refusal = draw_plant(sheet, set, &mut out).unwrap_err();
            assert_eq!(set, before);
            assert!(out.iter().all(|&byte| byte == 9));
            (refusal.number, refusal.place)
        };
        assert_eq!(refused(&[0x03], &mut []), (2, 0));
        assert_eq!(refused(&[0x04, 0x00], &mut [7; 4]), (5, 1));
        assert_eq!(refused(&[0x03, 0x0B, 0x10, 0x00], &mut [7; 4]), (9, 0));
        assert_eq!(refused(&[], &mut []), (10, 0));
        assert_eq!(refused(&[0x03, 0x04], &mut [7; 15]), (10, 0));
    }
}
