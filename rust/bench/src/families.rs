//! Sheets of any number of parts and roles, of six families.

use crate::sheets::{Sheet, AXIOM, BOTTOM, EXISTS, FORALL, INCLUSION, INVERSE, NAME, ROLE, TOP};

/// What becomes of the initial domino set.
#[derive(Clone, Copy, Debug, PartialEq, Eq)]
pub enum Family {
    /// Something stays.
    Met,
    /// The same with role inclusions.
    MetWithInclusions,
    /// The same with existential restrictions alone, so that more stays.
    MetByExistentials,
    /// It is empty.
    EmptyAtOnce,
    /// One sweep empties it.
    EmptyInOneSweep,
    /// It takes several sweeps to empty.
    EmptyInSweeps,
}

impl Family {
    /// Those of which every call is timed.
    pub const ALL: [Family; 5] = [
        Family::Met,
        Family::MetWithInclusions,
        Family::EmptyAtOnce,
        Family::EmptyInOneSweep,
        Family::EmptyInSweeps,
    ];

    /// Those of which judging is timed, each with the numbers of roles.
    pub const JUDGED: [(Family, &[u8]); 6] = [
        (Family::Met, &[1, 2, 3, 4]),
        (Family::MetByExistentials, &[1, 2, 3, 4]),
        (Family::MetWithInclusions, &[1, 2, 4]),
        (Family::EmptyAtOnce, &[1, 2, 4]),
        (Family::EmptyInOneSweep, &[1, 2, 4]),
        (Family::EmptyInSweeps, &[1, 2, 3, 4]),
    ];

    #[must_use]
    pub fn name(self) -> &'static str {
        match self {
            Family::Met => "met",
            Family::MetWithInclusions => "met, inclusions",
            Family::MetByExistentials => "met, existentials",
            Family::EmptyAtOnce => "unmet, none initial",
            Family::EmptyInOneSweep => "unmet in one sweep",
            Family::EmptyInSweeps => "unmet in sweeps",
        }
    }

    /// The sheet of this family with that many parts and roles, at least one
    /// each.
    #[must_use]
    pub fn sheet(self, parts: u8, roles: u8) -> Sheet {
        let mut base = Base::new(roles);
        match self {
            Family::Met => base.restrictions(parts, &BY_TURNS),
            Family::MetWithInclusions => {
                base.restrictions(parts, &BY_TURNS);
                base.inclusions();
            }
            Family::MetByExistentials => base.restrictions(parts, &[EXISTS]),
            Family::EmptyAtOnce => {
                base.restrictions(parts, &BY_TURNS);
                base.axiom(base.top, base.bottom);
            }
            Family::EmptyInOneSweep => {
                base.restrictions(parts - 1, &BY_TURNS);
                let exists = base.sheet.push([EXISTS, base.roles[0], base.bottom]);
                base.axiom(base.top, exists);
            }
            Family::EmptyInSweeps => base.chain(parts),
        }
        base.sheet
    }
}

/// The kinds of restrictions, by turns.
const BY_TURNS: [u8; 2] = [EXISTS, FORALL];

struct Base {
    sheet: Sheet,
    top: u8,
    bottom: u8,
    roles: Vec<u8>,
    inverses: Vec<u8>,
}

impl Base {
    fn new(roles: u8) -> Self {
        let mut sheet = Sheet::default();
        let top = sheet.push([TOP]);
        let bottom = sheet.push([BOTTOM]);
        let inverses = (0..roles).map(|number| sheet.push([INVERSE, number]));
        let inverses = inverses.collect();
        let roles = (0..roles).map(|number| sheet.push([ROLE, number]));
        let roles = roles.collect();
        Base {
            sheet,
            top,
            bottom,
            roles,
            inverses,
        }
    }

    fn axiom(&mut self, left: u8, right: u8) {
        self.sheet.push([AXIOM, left, right]);
    }

    fn names(&mut self, names: u8) -> Vec<u8> {
        (0..names)
            .map(|number| self.sheet.push([NAME, number]))
            .collect()
    }

    /// Name i is below a restriction of name i + 1, around in a circle; the kinds
    /// by turns, the universal ones by inverses. As many restrictions as names, or
    /// one less.
    fn restrictions(&mut self, parts: u8, kinds: &[u8]) {
        let names = self.names(parts.div_ceil(2));
        for turn in 0..usize::from(parts / 2) {
            let filler = names[(turn + 1) % names.len()];
            let kind = kinds[turn % kinds.len()];
            let roles = match kind {
                FORALL => &self.inverses,
                _ => &self.roles,
            };
            let restriction = [kind, roles[turn % roles.len()], filler];
            let restriction = self.sheet.push(restriction);
            self.axiom(names[turn], restriction);
        }
    }

    /// Each role is in the next, and an only role in its inverse.
    fn inclusions(&mut self) {
        for pair in self.roles.windows(2) {
            self.sheet.push([INCLUSION, pair[0], pair[1]]);
        }
        if let [role] = self.roles[..] {
            self.sheet.push([INCLUSION, role, self.inverses[0]]);
        }
    }

    /// Everything is name 0, each name needs the next, and the last needs or is
    /// nothing.
    fn chain(&mut self, parts: u8) {
        let names = self.names(parts.div_ceil(2));
        self.axiom(self.top, names[0]);
        for turn in 0..usize::from(parts / 2) {
            let filler = names.get(turn + 1).copied().unwrap_or(self.bottom);
            let role = self.roles[turn % self.roles.len()];
            let restriction = self.sheet.push([EXISTS, role, filler]);
            self.axiom(names[turn], restriction);
        }
        if let Some(&last) = names.get(usize::from(parts / 2)) {
            self.axiom(last, self.bottom);
        }
    }
}
