//! Sheets of 255 records.

const MAX_RECORDS: usize = 255;

pub(crate) const TOP: u8 = 0x01;
pub(crate) const BOTTOM: u8 = 0x02;
pub(crate) const NAME: u8 = 0x03;
const NOT: u8 = 0x04;
const AND: u8 = 0x05;
const OR: u8 = 0x06;
pub(crate) const EXISTS: u8 = 0x07;
pub(crate) const FORALL: u8 = 0x08;
pub(crate) const ROLE: u8 = 0x10;
pub(crate) const INVERSE: u8 = 0x11;
const ROLE_NOT: u8 = 0x12;
const ROLE_AND: u8 = 0x13;
const ROLE_OR: u8 = 0x14;
pub(crate) const AXIOM: u8 = 0x20;
pub(crate) const INCLUSION: u8 = 0x21;

/// A sheet under construction.
#[derive(Default)]
pub struct Sheet {
    bytes: Vec<u8>,
    records: usize,
}

impl Sheet {
    #[must_use]
    pub fn bytes(&self) -> &[u8] {
        &self.bytes
    }

    /// Adds a record and answers its number.
    pub(crate) fn push<const N: usize>(&mut self, record: [u8; N]) -> u8 {
        let number = u8::try_from(self.records).expect("at most 255 records");
        self.bytes.extend(record);
        self.records += 1;
        number
    }

    fn room(&self) -> usize {
        MAX_RECORDS - self.records
    }

    /// Fills up with unused leaves.
    fn full(mut self) -> Self {
        while self.room() > 0 {
            self.push([TOP]);
        }
        self
    }
}

/// Every sheet with its name.
#[must_use]
pub fn all() -> [(&'static str, Sheet); 11] {
    [
        ("boolean tree", boolean_tree()),
        ("boolean chain", boolean_chain()),
        ("many axioms", many_axioms()),
        ("12 restrictions", twelve_restrictions()),
        ("250 nots", nots()),
        ("unused records", unused()),
        ("one claim 126 times", one_claim()),
        ("125 claims, 10 different", ten_claims()),
        ("role trees alike", role_trees(1, 61)),
        ("role trees nearly alike", role_trees(8, 13)),
        ("251 role inclusions", inclusions()),
    ]
}

/// Concepts to build on: three names, everything, and two restrictions.
struct Base {
    names: [u8; 3],
    top: u8,
    exists: u8,
    forall: u8,
}

fn base(sheet: &mut Sheet) -> Base {
    let names = [0, 1, 2].map(|number| sheet.push([NAME, number]));
    let top = sheet.push([TOP]);
    let role = sheet.push([ROLE, 0]);
    let inverse = sheet.push([INVERSE, 0]);
    let not = sheet.push([NOT, names[1]]);
    let exists = sheet.push([EXISTS, role, not]);
    let forall = sheet.push([FORALL, inverse, names[2]]);
    Base {
        names,
        top,
        exists,
        forall,
    }
}

/// Four leaf roles, each in each again and again.
fn inclusions() -> Sheet {
    let mut sheet = Sheet::default();
    let roles: Vec<u8> = (0..4).map(|number| sheet.push([ROLE, number])).collect();
    for turn in 0..sheet.room() {
        sheet.push([INCLUSION, roles[turn % 4], roles[turn / 4 % 4]]);
    }
    sheet
}

/// And or or, in turns.
fn and_or(turn: usize) -> u8 {
    [AND, OR][turn % 2]
}

/// One axiom over a balanced tree of ands and ors.
fn boolean_tree() -> Sheet {
    let mut sheet = Sheet::default();
    let base = base(&mut sheet);
    let mut layer = vec![base.exists, base.forall];
    // n concepts take n - 1 nodes to join; the axiom takes one more record.
    while 2 + layer.len() <= sheet.room() {
        let turn = layer.len();
        let (c, d) = (base.names[turn % 3], base.names[(turn + 1) % 3]);
        layer.push(sheet.push([and_or(turn), c, d]));
    }
    while layer.len() > 1 {
        layer = joined(&mut sheet, &layer);
    }
    sheet.push([AXIOM, base.top, layer[0]]);
    sheet.full()
}

/// Joins neighbours by an and or an or.
fn joined(sheet: &mut Sheet, layer: &[u8]) -> Vec<u8> {
    let mut join = |(turn, pair): (usize, &[u8])| match *pair {
        [c, d] => sheet.push([and_or(turn), c, d]),
        _ => pair[0],
    };
    layer.chunks(2).enumerate().map(&mut join).collect()
}

/// One axiom over ands, ors and nots, each inside the next.
fn boolean_chain() -> Sheet {
    let mut sheet = Sheet::default();
    let base = base(&mut sheet);
    let mut last = sheet.push([AND, base.exists, base.forall]);
    while sheet.room() > 1 {
        last = match sheet.room() % 3 {
            0 => sheet.push([NOT, last]),
            1 => sheet.push([AND, base.names[0], last]),
            _ => sheet.push([OR, last, base.names[1]]),
        };
    }
    sheet.push([AXIOM, last, base.top]);
    sheet.full()
}

/// Axioms between leaves, every other one with a not on its left side.
fn many_axioms() -> Sheet {
    let mut sheet = Sheet::default();
    let base = base(&mut sheet);
    sheet.push([AXIOM, base.exists, base.forall]);
    while sheet.room() >= 3 {
        let not = sheet.push([NOT, base.names[0]]);
        sheet.push([AXIOM, not, base.names[1]]);
        sheet.push([AXIOM, base.names[1], base.names[2]]);
    }
    sheet.full()
}

/// Twelve restrictions among ands and ors, no two alike. Beside a role eleven
/// parts fit, so one restriction is unused.
fn twelve_restrictions() -> Sheet {
    let mut sheet = Sheet::default();
    let top = sheet.push([TOP]);
    let bottom = sheet.push([BOTTOM]);
    let role = sheet.push([ROLE, 0]);
    let inverse = sheet.push([INVERSE, 0]);
    let restriction = |sheet: &mut Sheet, turn: usize| {
        let kind = [EXISTS, FORALL][turn % 2];
        let filler = [top, bottom][turn / 2 % 2];
        let role = match turn / 4 {
            0 => role,
            1 => inverse,
            _ => sheet.push([ROLE_AND, role, inverse]),
        };
        sheet.push([kind, role, filler])
    };
    for turn in 0..11 {
        let mut concept = restriction(&mut sheet, turn);
        for depth in 0..20 {
            concept = sheet.push([and_or(depth), concept, top]);
        }
        sheet.push([AXIOM, top, concept]);
    }
    restriction(&mut sheet, 11);
    sheet.full()
}

/// S1's axiom as often as there is room for.
fn one_claim() -> Sheet {
    let mut sheet = Sheet::default();
    let top = sheet.push([TOP]);
    let role = sheet.push([ROLE, 0]);
    let name = sheet.push([NAME, 0]);
    while sheet.room() >= 2 {
        let exists = sheet.push([EXISTS, role, name]);
        sheet.push([AXIOM, top, exists]);
    }
    sheet.full()
}
/// Ten claims, made by turns as often as there is room for.
fn ten_claims() -> Sheet {
    let mut sheet = Sheet::default();
    let fillers = [sheet.push([TOP]), sheet.push([BOTTOM])];
    let roles = [[ROLE, 0], [INVERSE, 0], [ROLE, 1]].map(|role| sheet.push(role));
    for claim in (0..10).cycle() {
        if sheet.room() < 2 {
            break;
        }
        let kind = [EXISTS, FORALL][claim % 2];
        let filler = fillers[claim / 2 % 2];
        let restriction = sheet.push([kind, roles[claim / 4], filler]);
        sheet.push([AXIOM, fillers[0], restriction]);
    }
    sheet.full()
}

/// Restrictions by roles of so many ands, each inside the next, that differ in
/// the last leaf alone: one for each of so many leaves, then all like the last.
fn role_trees(leaves: u8, ands: usize) -> Sheet {
    let mut sheet = Sheet::default();
    let top = sheet.push([TOP]);
    let leaves = (0..leaves).map(|leaf| sheet.push([ROLE + leaf % 2, leaf / 2]));
    let leaves: Vec<u8> = leaves.collect();
    let mut turn = 0;
    while sheet.room() >= ands + 2 {
        let mut role = leaves[turn.min(leaves.len() - 1)];
        for _ in 0..ands {
            role = sheet.push([ROLE_AND, leaves[0], role]);
        }
        let exists = sheet.push([EXISTS, role, top]);
        sheet.push([AXIOM, top, exists]);
        turn += 1;
    }
    sheet.full()
}

/// A chain of 250 nots under one axiom.
fn nots() -> Sheet {
    let mut sheet = Sheet::default();
    let name = sheet.push([NAME, 0]);
    let mut last = name;
    for _ in 0..250 {
        last = sheet.push([NOT, last]);
    }
    sheet.push([AXIOM, name, last]);
    sheet.full()
}

/// One axiom, beside concepts and roles that it does not reach.
fn unused() -> Sheet {
    let mut sheet = Sheet::default();
    let base = base(&mut sheet);
    sheet.push([AXIOM, base.exists, base.forall]);
    while sheet.room() >= 7 {
        let role = sheet.push([ROLE, 0]);
        let not = sheet.push([ROLE_NOT, role]);
        let and = sheet.push([ROLE_AND, not, role]);
        let or = sheet.push([ROLE_OR, and, role]);
        let exists = sheet.push([EXISTS, or, base.names[0]]);
        let not = sheet.push([NOT, exists]);
        sheet.push([AND, not, base.names[1]]);
    }
    sheet.full()
}
