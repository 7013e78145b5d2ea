//! Plants drawn for a sheet.

use super::drawing::{Connection, Drawing};
use super::ground::{Ground, Survivors};
use super::MOST;
use crate::random::Random;
use reference::domino::Domino;

/// Any individuals, at most so many, and any connections.
#[must_use]
pub fn any(ground: &Ground, most: usize, random: &mut Random) -> Drawing {
    let size = 1 + random.below(most);
    let style = random.below(4);
    let one = random.word() as u16;
    let individuals = (0..size).map(|_| {
        let bits = match style {
            0 => one,
            1 => (random.word() & random.word()) as u16,
            2 => (random.word() | random.word()) as u16,
            _ => random.word() as u16,
        };
        bits & ground.free
    });
    let mut drawing = Drawing {
        individuals: individuals.collect(),
        connections: Vec::new(),
    };
    let connections = random.pick(&[0, size / 2, size, size, 2 * size, size * size]);
    for _ in 0..connections {
        drawing.connections.extend(connection(ground, size, random));
    }
    drawing
}

/// Any connection of so many individuals, if there is a role.
fn connection(ground: &Ground, size: usize, random: &mut Random) -> Option<Connection> {
    let [from, to] = [random.below(size), random.below(size)];
    let roles = ground.shape.roles;
    let role = (roles > 0).then(|| random.below(roles))?;
    Some(Connection { from, to, role })
}

/// The same names and connections, and as fresh names what holds of their
/// fillers by the axioms as written.
///
/// # Panics
///
/// If the plant is none of the sheet.
#[must_use]
pub fn with_fillers(ground: &Ground, mut drawing: Drawing) -> Drawing {
    let interpretation = drawing.interpretation(ground.counts);
    let labels = interpretation.labels(&ground.sheet);
    let labels = labels.expect("a sheet without faults");
    for (bits, label) in drawing.individuals.iter_mut().zip(labels) {
        *bits = label as u16 & ground.free;
    }
    drawing
}

/// So many individuals with labels of survivors, and between each two the roles
/// of a survivor or none; nothing if there is no survivor.
#[must_use]
pub fn of_survivors(
    ground: &Ground,
    survivors: &Survivors,
    size: usize,
    random: &mut Random,
) -> Option<Drawing> {
    if survivors.labels.is_empty() {
        return None;
    }
    let labels: Vec<u64> = (0..size).map(|_| random.pick(&survivors.labels)).collect();
    let mut drawing = Drawing {
        individuals: labels
            .iter()
            .map(|&label| label as u16 & ground.free)
            .collect(),
        connections: Vec::new(),
    };
    let unjoined = random.below(4);
    for (x, &left) in labels.iter().enumerate() {
        for (y, &right) in labels.iter().enumerate().skip(x) {
            let roles = survivors.roles(left, right, random).unwrap_or(0);
            let is_one = x != y || Domino { left, roles, right }.converse().roles == roles;
            if is_one && random.below(4) >= unjoined {
                drawing.connect(x, y, roles);
            }
        }
    }
    Some(drawing)
}

/// Three layers of all survivors, each joined to those of the next layer that go
/// with it (document 02, N11).
#[must_use]
pub fn layers(ground: &Ground, survivors: &[Domino]) -> Drawing {
    let layer = survivors.len();
    let mut drawing = Drawing::default();
    for survivor in survivors.iter().chain(survivors).chain(survivors) {
        drawing
            .individuals
            .push(survivor.right as u16 & ground.free);
    }
    for (i, joined) in survivors.iter().enumerate() {
        for (j, next) in survivors.iter().enumerate() {
            if joined.right == next.left {
                for [from, to] in [[0, 1], [1, 2], [2, 0]] {
                    drawing.connect(from * layer + i, to * layer + j, next.roles);
                }
            }
        }
    }
    drawing
}

/// With one thing changed: a bit, or a connection more, less, turned round or of
/// another role.
#[must_use]
pub fn nudged(ground: &Ground, mut drawing: Drawing, random: &mut Random) -> Drawing {
    let size = drawing.len();
    let connections = drawing.connections.len();
    match random.below(6) {
        0 | 1 => {
            let free: Vec<u16> = (0..16).filter(|bit| ground.free >> bit & 1 == 1).collect();
            if !free.is_empty() {
                drawing.individuals[random.below(size)] ^= 1 << random.pick(&free);
            }
        }
        2 if connections > 0 => drop(drawing.connections.swap_remove(random.below(connections))),
        3 if connections > 0 => {
            let turned = &mut drawing.connections[random.below(connections)];
            (turned.from, turned.to) = (turned.to, turned.from);
        }
        4 if connections > 0 => {
            let changed = &mut drawing.connections[random.below(connections)];
            changed.role = random.below(ground.shape.roles);
        }
        _ => drawing.connections.extend(connection(ground, size, random)),
    }
    drawing
}

/// As many individuals as there may be, and a few connections.
#[must_use]
pub fn full(ground: &Ground, random: &mut Random) -> Drawing {
    let mut drawing = any(ground, 1, random);
    let individuals = (0..MOST).map(|_| random.word() as u16 & ground.free);
    drawing.individuals = individuals.collect();
    for _ in 0..random.below(20) {
        drawing.connections.extend(connection(ground, MOST, random));
    }
    drawing
}
