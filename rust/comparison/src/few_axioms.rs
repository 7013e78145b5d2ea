//! Sheets of a few axioms whose restrictions work against one another, so that
//! dominoes go step by step; about half of them have role inclusions too.

use crate::copies;
use crate::inclusions;
use crate::made_up::{Sheet, MAX_RECORDS};
use crate::random::Random;
use reference::{Counts, Judgement};

/// A sheet whose parts and roles come to exactly `size`, which is not 0.
pub fn sheet(size: usize, random: &mut Random) -> Vec<u8> {
    let fits = |counts: Counts| counts.marks() + counts.links == size as u64;
    loop {
        let bytes = Writer::new(size, random).axioms();
        if reference::read(&bytes).is_ok_and(fits) {
            return bytes;
        }
    }
}

/// Such a sheet that is unmet though it has an initial domino; after many draws
/// any such sheet.
pub fn unmet_sheet(size: usize, random: &mut Random) -> Vec<u8> {
    const DRAWS: usize = 60;
    let mut bytes = sheet(size, random);
    for _ in 0..DRAWS {
        let judgement = judged(&bytes);
        if judgement.opening > 0 && !judgement.met {
            break;
        }
        bytes = sheet(size, random);
    }
    bytes
}

fn judged(sheet: &[u8]) -> Judgement {
    let counts = reference::read(sheet).expect("a sheet without faults");
    let shape = counts.shape();
    let mut set = vec![0; shape.words()];
    reference::judge(sheet, &mut set).expect("a set long enough")
}

struct Writer<'a> {
    random: &'a mut Random,
    sheet: Sheet,
    names: usize,
    roles: usize,
    /// Parts that may still be added.
    room: usize,
    /// Restrictions that may be copied.
    restrictions: Vec<u8>,
    /// Whether they are.
    copying: bool,
    /// Times that role inclusions are still added.
    inclusions: usize,
}

impl<'a> Writer<'a> {
    fn new(size: usize, random: &'a mut Random) -> Self {
        let roles = random.pick(&[0, 1, 1, 1, 1, 1, 2, 2, 3, 4]).min(size);
        let names = random.below((size - roles).min(3) + 1);
        let copying = !random.one_in(3);
        let inclusions = match roles {
            0 => 0,
            _ => random.pick(&[0, 0, 0, 1, 1, 2]),
        };
        Writer {
            random,
            sheet: Sheet::default(),
            names,
            roles,
            room: size - roles - names,
            restrictions: Vec::new(),
            copying,
            inclusions,
        }
    }

    fn axioms(mut self) -> Vec<u8> {
        let most = 1 + self.random.below(5);
        for axiom in 0..30 {
            if self.inclusions > 0 && self.random.one_in(2) {
                self.include();
            }
            let left = match self.random.below(4) {
                0 | 1 => self.sheet.push(&[0x01]),
                2 => self.leaf(),
                _ => self.concept(1),
            };
            let right = match self.copy() {
                Some(copy) => copy,
                None if self.room > 0 && self.roles > 0 => self.restriction(2),
                None => self.concept(2),
            };
            self.sheet.push(&[0x20, left, right]);
            if axiom + 1 >= most && self.room == 0 {
                break;
            }
        }
        while self.inclusions > 0 {
            self.include();
        }
        self.sheet.bytes
    }

    fn include(&mut self) {
        self.inclusions -= 1;
        inclusions::add(&mut self.sheet, self.roles, self.random);
    }

    fn leaf(&mut self) -> u8 {
        match self.random.below(8) {
            0 => self.sheet.push(&[0x01]),
            1 => self.sheet.push(&[0x02]),
            _ if self.names == 0 => self.sheet.push(&[0x01]),
            _ => self.sheet.push(&[0x03, self.random.byte_below(self.names)]),
        }
    }

    fn concept(&mut self, depth: usize) -> u8 {
        if let Some(copy) = self.copy() {
            return copy;
        }
        match self.random.below(8) {
            0 | 1 if depth > 0 && self.room > 0 && self.roles > 0 => self.restriction(depth),
            2 | 3 if depth > 0 => self.nots(depth),
            4 | 5 if depth > 0 => {
                let (c, d) = (self.concept(depth - 1), self.concept(depth - 1));
                self.sheet.push(&[self.random.pick(&[0x05, 0x06]), c, d])
            }
            _ => self.leaf(),
        }
    }

    /// A not, sometimes a chain of them.
    fn nots(&mut self, depth: usize) -> u8 {
        let mut concept = self.concept(depth - 1);
        let more = match self.random.below(6) {
            0 => self.random.below(6),
            _ => 0,
        };
        for _ in 0..=more {
            concept = self.sheet.push(&[0x04, concept]);
        }
        concept
    }

    fn restriction(&mut self, depth: usize) -> u8 {
        self.room -= 1;
        let role = self.restricted_role();
        let filler = if self.room > 0 && self.random.one_in(2) {
            self.room -= 1;
            self.concept(depth - 1)
        } else {
            self.leaf()
        };
        let kind = self.random.pick(&[0x07, 0x08]);
        let restriction = self.sheet.push(&[kind, role, filler]);
        self.restrictions.push(restriction);
        restriction
    }

    /// Now and then a copy of an earlier restriction.
    fn copy(&mut self) -> Option<u8> {
        if !self.copying || self.restrictions.is_empty() || !self.random.one_in(3) {
            return None;
        }
        let restriction = self.random.pick(&self.restrictions);
        copies::copy(&mut self.sheet, restriction, MAX_RECORDS, self.random)
    }

    /// A role that fails on the empty role set.
    fn restricted_role(&mut self) -> u8 {
        let (role, holds_on_empty) = self.role(2);
        if !holds_on_empty {
            return role;
        }
        let leaf = self.leaf_role();
        self.sheet.push(&[0x13, role, leaf])
    }

    fn leaf_role(&mut self) -> u8 {
        let kind = self.random.pick(&[0x10, 0x11]);
        self.sheet.push(&[kind, self.random.byte_below(self.roles)])
    }

    /// A role, and whether it holds on the empty role set.
    fn role(&mut self, depth: usize) -> (u8, bool) {
        match self.random.below(6) {
            0 if depth > 0 => {
                let (u, holds) = self.role(depth - 1);
                (self.sheet.push(&[0x12, u]), !holds)
            }
            1 if depth > 0 => {
                let ((u, on_u), (v, on_v)) = (self.role(depth - 1), self.role(depth - 1));
                (self.sheet.push(&[0x13, u, v]), on_u && on_v)
            }
            2 if depth > 0 => {
                let ((u, on_u), (v, on_v)) = (self.role(depth - 1), self.role(depth - 1));
                (self.sheet.push(&[0x14, u, v]), on_u || on_v)
            }
            _ => (self.leaf_role(), false),
        }
    }
}
