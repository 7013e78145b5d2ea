use super::*;
use crate::names::Names;
use crate::parts::parts;
use comparison::random::Random;
use comparison::worked::{from_hex, S1, S6};
use fault::{drawing, Of};

/// Number, start, kind and bytes of each record.
fn walked(plant: &[u8]) -> Vec<(usize, usize, Option<Kind>, &[u8])> {
    let walked = records(plant).map(|r| (r.number, r.start, r.kind, r.bytes));
    walked.collect()
}

#[test]
fn a_plant_is_walked() {
    let plant = [0x40, 1, 2, 0x41, 3, 4, 5, 6, 7, 0x40, 8, 9];
    let (item, connection) = (Some(Kind::Item), Some(Kind::Connection));
    let expected = [
        (0, 0, item, &plant[..3]),
        (1, 3, connection, &plant[3..9]),
        (2, 9, item, &plant[9..]),
    ];
    assert_eq!(walked(&plant), expected);
    assert_eq!(walked(&[]), []);
    let [item, connection, _] = [0, 1, 2].map(|n| records(&plant).nth(n).expect("a record"));
    assert_eq!(item.bits(), 0x0201);
    assert_eq!(connection.ends(), [0x0403, 0x0605]);
    assert_eq!(connection.role(), 7);
}

#[test]
fn the_last_record_may_be_cut_off_or_of_no_known_kind() {
    let cut = [0x41, 9, 0, 1];
    assert_eq!(walked(&cut), [(0, 0, Some(Kind::Connection), &cut[..])]);
    let cut = records(&cut).next().expect("a record");
    assert_eq!((cut.ends(), cut.role(), cut.length()), ([9, 1], 0, 6));
    let unknown = [0x40, 0, 0, 0x42, 0x40];
    let expected = [
        (0, 0, Some(Kind::Item), &unknown[..3]),
        (1, 3, None, &unknown[3..4]),
    ];
    assert_eq!(walked(&unknown), expected);
}

/// Bytes of any sort are walked, each record where the last one ends.
#[test]
fn noise_is_walked() {
    let mut random = Random::seeded(94);
    for _ in 0..2_000 {
        let kinds = [0x40, 0x41, 0x40, 0x41, 0x42, 0];
        let length = random.below(60);
        let noise: Vec<_> = (0..length).map(|_| random.pick(&kinds)).collect();
        let mut end = 0;
        for (number, record) in records(&noise).enumerate() {
            assert_eq!((record.number, record.start), (number, end));
            end += record.bytes.len();
            assert_eq!(record.bytes, &noise[record.start..end]);
        }
        let last = records(&noise).last();
        let unknown = last.is_some_and(|record| record.kind.is_none());
        assert!(end == noise.len() || unknown);
    }
}

#[test]
fn the_items_and_what_joins_them() {
    let bytes = "40 03 00 40 00 08 41 00 00 01 00 00 41 01 00 00 00 03 41 01 00 01 00 01 \
                 41 00 00 01 00 00";
    let plant = Plant::of(&from_hex(bytes));
    assert_eq!(plant.len(), 2);
    assert_eq!(plant.connections(), 3);
    let has = |item| (0..16).filter(|part| plant.has(item, *part)).collect();
    let bits: [Vec<usize>; 2] = [has(0), has(1)];
    assert_eq!(bits, [vec![0, 1], vec![11]]);
    assert_eq!(
        [1, 2, 12].map(|bound| plant.bits_below(bound, 0)),
        [1, 3, 3]
    );
    assert_eq!([11, 12].map(|bound| plant.bits_below(bound, 1)), [0, 0x800]);
    assert_eq!(plant.roles(0, 0), 0);
    assert_eq!(plant.roles(0, 1), 0b1000_0001);
    assert_eq!(plant.roles(1, 0), 0b0100_0010);
    assert_eq!(plant.roles(1, 1), 0b0000_1100);
}

/// Items among connections have the same plant.
#[test]
fn the_order_of_records_does_not_count() {
    let mixed = "40 01 00 41 00 00 00 00 00 40 02 00 41 01 00 00 00 01 40 00 00";
    let sorted = "40 01 00 40 02 00 40 00 00 41 01 00 00 00 01 41 00 00 00 00 00";
    let [mixed, sorted] = [mixed, sorted].map(|hex| Plant::of(&from_hex(hex)));
    assert_eq!(mixed, sorted);
    assert_eq!((mixed.len(), mixed.connections()), (3, 2));
}

/// What is drawn of a plant that is refused with that number.
fn drawn(sheet: &str, plant: &[u8], number: u64) -> Option<String> {
    let sheet = from_hex(sheet);
    let counts = lodhrussi::read(&sheet).expect("a sheet without faults");
    let of = Of {
        parts: &parts(&sheet, counts).expect("a sheet without faults"),
        links: counts.links,
        names: &Names::parse("t0 = reheat coil\nk0 = feeds").expect("names"),
    };
    drawing(plant, number, of)
}

/// Sheet, plant, number and drawing.
const FAULTS: &[(&str, &str, u64, &str)] = &[
    (
        S6,
        "40 01 00 FF",
        22,
        "  record 1 at byte 3:  FF  no known kind
                       ^^  kind: found FF; wanted 40 or 41
",
    ),
    (
        S6,
        "40",
        22,
        "  record 0 at byte 0:  40 .. ..  item
                          ^^^^^  found the end of the plant; wanted two bytes of traits and fresh \
         marks
",
    ),
    (
        S6,
        "41 00 00",
        22,
        "  record 0 at byte 0:  41 00 00 .. .. ..  connection
                                ^^^^^^^^  found the end of the plant; wanted two items, each in \
         two bytes, and a link
",
    ),
    (
        S6,
        "40 05 00 40 06 80",
        24,
        "  record 1 at byte 3:  40 06 80  item
                          ^^     found mark 1, some feeds . not 'reheat coil', which is worked \
         out from the connections; wanted traits and fresh marks
",
    ),
    (
        S6,
        "40 00 80",
        24,
        "  record 0 at byte 0:  40 00 80  item
                             ^^  found bit 15, and there is no mark 15; wanted traits and fresh \
         marks
",
    ),
    (
        S6,
        "40 00 00 41 01 00 09 00 09",
        24,
        "  record 1 at byte 3:  41 01 00 09 00 09  connection
                          ^^^^^           found item 1; wanted 0
",
    ),
    (
        S6,
        "40 00 00 40 00 00 40 00 00 41 02 00 03 00 09",
        24,
        "  record 3 at byte 9:  41 02 00 03 00 09  connection
                                ^^^^^     found item 3; wanted 0 to 2
",
    ),
    (
        "10 01",
        "40 00 00 41 00 00 00 00 02",
        24,
        "  record 1 at byte 3:  41 00 00 00 00 02  connection
                                      ^^  found link 2; wanted 0 to 1
",
    ),
];

#[test]
fn faults_are_drawn() {
    for (sheet, plant, number, drawing) in FAULTS {
        let plant = from_hex(plant);
        let drawn_of = |number| drawn(sheet, &plant, number);
        assert_eq!(drawn_of(*number).as_deref(), Some(*drawing));
        // another refusal is of another plant
        let others = (22..=25).filter(|other| other != number);
        assert!(others.map(drawn_of).all(|drawing| drawing.is_none()));
    }
    assert_eq!(drawn(S1, &[], 25), None);
    assert_eq!(drawn(S1, &from_hex("40 01 00 41 00 00 00 00 00"), 24), None);
}

/// A plant for S6, which may be damaged.
fn perhaps_damaged(random: &mut Random) -> Vec<u8> {
    let record = |random: &mut Random| match random.one_in(2) {
        true => vec![0x40, random.pick(&[0, 1, 4, 5, 5, 6]), 0],
        false => [&[0x41][..], &[random.byte_below(2), 0].repeat(2), &[0]].concat(),
    };
    let count = random.below(6);
    let mut plant: Vec<_> = (0..count).flat_map(|_| record(random)).collect();
    if random.one_in(3) && !plant.is_empty() {
        let at = random.below(plant.len());
        plant[at] = random.pick(&[0, 1, 2, 0x40, 0x41, 0x42]);
    }
    if random.one_in(4) {
        plant.pop();
    }
    plant
}

/// A plant has a drawing exactly if the library refuses it with the number of a
/// record's fault.
#[test]
fn every_fault_of_a_record_is_drawn() {
    let mut random = Random::seeded(95);
    let sheet = from_hex(S6);
    let (mut done, mut faulty) = (0, [0; 2]);
    for _ in 0..4_000 {
        let plant = perhaps_damaged(&mut random);
        let refusal = lodhrussi::check_plant(&sheet, &plant, &mut [0; 4]).err();
        let number = refusal.map(|refusal| refusal.number);
        let drawings = (22..=24).filter(|number| drawn(S6, &plant, *number).is_some());
        let of_record = number.filter(|number| *number != 25);
        assert_eq!(drawings.collect::<Vec<_>>(), Vec::from_iter(of_record));
        done += usize::from(number.is_none());
        faulty[0] += usize::from(number == Some(22));
        faulty[1] += usize::from(number == Some(24));
    }
    assert!(
        done > 200 && faulty.iter().all(|count| *count > 200),
        "{done} {faulty:?}"
    );
}
