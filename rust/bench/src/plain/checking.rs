//! The check of a drawn plant: a pass over the file for its faults and items, then
//! two rounds of blocks of rows, each block filled by a pass over the connections.

use super::tables::{filler_is_in, mask, Tables};
use lodhrussi::PlantCheck;

const ITEM: u8 = 0x40;
const CONNECTION: u8 = 0x41;

const ITEMS: usize = 1024;

/// The rows of a block, and the words of a row: a byte a pair.
const ROWS: usize = 128;
const ROW: usize = ITEMS / 8;

/// The items of a plant with their names and fresh names.
pub struct Drawn {
    count: usize,
    names: [u16; ITEMS],
}

impl Drawn {
    fn names(&self) -> &[u16] {
        &self.names[..self.count]
    }

    /// The items, or the number of the first refusal.
    pub fn read(tables: &Tables, plant: &[u8]) -> Result<Self, u64> {
        let (named, roles) = (tables.named(), tables.sizes.roles());
        let mut drawn = Drawn {
            count: 0,
            names: [0; ITEMS],
        };
        let mut rest = plant;
        while let [kind, body @ ..] = rest {
            rest = match (kind, body) {
                (&ITEM, &[low, high, ref rest @ ..]) => {
                    drawn.add(u16::from_le_bytes([low, high]), named)?;
                    rest
                }
                (&CONNECTION, &[a, b, c, d, role, ref rest @ ..]) => {
                    let ends = [[a, b], [c, d]].map(u16::from_le_bytes);
                    let is_item = |end| usize::from(end) < drawn.count;
                    if !ends.into_iter().all(is_item) || u32::from(role) >= roles {
                        return Err(24);
                    }
                    rest
                }
                _ => return Err(22),
            }
        }
        if drawn.count == 0 {
            return Err(25);
        }
        Ok(drawn)
    }

    fn add(&mut self, names: u16, named: u16) -> Result<(), u64> {
        let slot = self.names.get_mut(self.count).ok_or(23_u64)?;
        if names & !named != 0 {
            return Err(24);
        }
        *slot = names;
        self.count += 1;
        Ok(())
    }
}

/// What there is of restrictions.
struct Claims {
    exists: u16,
    forall: u16,
    /// By role set: the restrictions whose role holds there.
    holds: [u16; 256],
    /// By item: the restrictions whose filler it has.
    fillers: [u16; ITEMS],
}

impl Claims {
    fn of(tables: &Tables, drawn: &Drawn) -> Self {
        let mut claims = Claims {
            exists: mask(&tables.exists),
            forall: mask(&tables.forall),
            holds: [0; 256],
            fillers: [0; ITEMS],
        };
        for restriction in tables.exists.iter().chain(&tables.forall) {
            let part = restriction.part;
            for (holds, &on) in claims.holds.iter_mut().zip(&restriction.on) {
                *holds |= u16::from(on) << part;
            }
            for (fillers, &names) in claims.fillers.iter_mut().zip(drawn.names()) {
                let is_in = filler_is_in(restriction.filler, u64::from(names));
                *fillers |= u16::from(is_in) << part;
            }
        }
        claims
    }

    /// The label of the item of that row.
    fn label(&self, names: u16, row: &[u64], count: usize) -> u16 {
        let (mut met, mut missed) = (0, 0);
        for (word, fillers) in row.iter().zip(self.fillers[..count].chunks(8)) {
            for (roles, &fillers) in word.to_le_bytes().into_iter().zip(fillers) {
                let holds = self.holds[usize::from(roles)];
                met |= holds & fillers;
                missed |= holds & !fillers;
            }
        }
        names | met & self.exists | !missed & self.forall
    }
}

/// Rows of role sets, from an item on.
struct Block {
    first: usize,
    words: [u64; ROWS * ROW],
}

impl Block {
    fn new() -> Self {
        Block {
            first: 0,
            words: [0; ROWS * ROW],
        }
    }

    /// The rows from that item on.
    fn fill(&mut self, first: usize, plant: &[u8]) {
        self.first = first;
        self.words.fill(0);
        let mut rest = plant;
        loop {
            rest = match *rest {
                [CONNECTION, a, b, c, d, role, ref rest @ ..] => {
                    let [from, to] = [[a, b], [c, d]].map(u16::from_le_bytes);
                    self.add(from, to, 1 << (2 * role));
                    self.add(to, from, 2 << (2 * role));
                    rest
                }
                [ITEM, _, _, ref rest @ ..] => rest,
                _ => break,
            };
        }
    }

    fn add(&mut self, from: u16, to: u16, roles: u64) {
        let (row, to) = (usize::from(from).wrapping_sub(self.first), usize::from(to));
        if row < ROWS {
            self.words[ROW * row + to / 8] |= roles << (8 * (to % 8));
        }
    }

    /// The rows up to that item, each with its number.
    fn rows(&self, count: usize) -> impl Iterator<Item = (usize, &[u64])> {
        (self.first..count).zip(self.words.chunks_exact(ROW))
    }
}

/// Writes the dominoes of a plant and tells what breaks first.
pub fn check(tables: &Tables, drawn: &Drawn, plant: &[u8], set: &mut [u64]) -> PlantCheck {
    let mut block = Block::new();
    let labels = labels(tables, drawn, plant, &mut block);
    let breaks = |&label: &u16| !tables.kb[usize::from(label)];
    let item = labels[..drawn.count].iter().position(breaks);
    set.fill(0);
    let mut pair = None;
    for first in (0..drawn.count).step_by(ROWS) {
        block.fill(first, plant);
        for (from, row) in block.rows(drawn.count) {
            let to = write_row(tables, &labels[..drawn.count], from, row, set);
            pair = pair.or(to.map(|to| PlantCheck::Pair(from, to)));
        }
    }
    let item = item.map(PlantCheck::Item);
    item.or(pair).unwrap_or(PlantCheck::Holds)
}

fn labels(tables: &Tables, drawn: &Drawn, plant: &[u8], block: &mut Block) -> [u16; ITEMS] {
    let claims = Claims::of(tables, drawn);
    let mut labels = [0; ITEMS];
    for first in (0..drawn.count).step_by(ROWS) {
        block.fill(first, plant);
        for (item, row) in block.rows(drawn.count) {
            labels[item] = claims.label(drawn.names[item], row, drawn.count);
        }
    }
    labels
}

/// Puts the dominoes of a row into the set; the first item to which the role set
/// breaks a role inclusion.
fn write_row(
    tables: &Tables,
    labels: &[u16],
    from: usize,
    row: &[u64],
    set: &mut [u64],
) -> Option<usize> {
    let sizes = tables.sizes;
    let left = usize::from(labels[from]) << sizes.role_set;
    let mut first = None;
    for (at, (word, rights)) in row.iter().zip(labels.chunks(8)).enumerate() {
        for (to, (roles, &right)) in word.to_le_bytes().into_iter().zip(rights).enumerate() {
            let roles = usize::from(roles);
            let number = (left | roles) << sizes.label | usize::from(right);
            set[number / 64] |= 1 << (number % 64);
            if first.is_none() && !tables.rbox[roles] {
                first = Some(8 * at + to);
            }
        }
    }
    first
}
