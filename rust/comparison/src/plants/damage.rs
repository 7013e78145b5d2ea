//! Files with some damage done to them, and bytes that are hardly a file.

use super::drawing::{Drawing, CONNECTION, INDIVIDUAL};
use super::ground::Ground;
use crate::random::Random;

/// A plant's file with some damage done to it.
#[must_use]
pub fn damaged(drawing: &Drawing, random: &mut Random) -> Vec<u8> {
    let mut records = drawing.any_records(random);
    let (one, other) = (random.below(records.len()), random.below(records.len()));
    match random.below(12) {
        0 => records.swap(one, other),
        1 => drop(records.remove(one)),
        2 => records.insert(one, records[other].clone()),
        3 => records[one][0] = random.byte(),
        4 => records[one][0] ^= 1,
        5 => records[one] = [INDIVIDUAL, random.byte(), random.byte()].into(),
        6 => {
            let at = 1 + random.below(records[one].len() - 1);
            records[one][at] = random.byte_below(12);
        }
        _ => return damaged_bytes(records.concat(), random),
    }
    records.concat()
}

fn damaged_bytes(mut file: Vec<u8>, random: &mut Random) -> Vec<u8> {
    let at = random.below(file.len());
    match random.below(5) {
        0 => file.truncate(at),
        1 => file[at] = random.byte(),
        2 => file[at] = likely_byte(random),
        3 => file.insert(at, likely_byte(random)),
        _ => drop(file.remove(at)),
    }
    file
}

/// Random bytes, mostly kinds and small numbers.
#[must_use]
pub fn noise(ground: &Ground, random: &mut Random) -> Vec<u8> {
    let mut file = Vec::new();
    for _ in 0..random.below(3) {
        file.extend([INDIVIDUAL, random.byte() & ground.free as u8, 0]);
    }
    let length = random.below(24);
    file.extend((0..length).map(|_| likely_byte(random)));
    file
}

/// A byte that could stand in a file.
pub fn likely_byte(random: &mut Random) -> u8 {
    match random.below(8) {
        0 => random.byte(),
        1 | 2 => random.pick(&[INDIVIDUAL, CONNECTION]),
        3 => random.byte_below(6),
        _ => 0,
    }
}
