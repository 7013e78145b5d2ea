//! What is worked out once a call, for judging by labels.

use super::mask::Mask;
use crate::plain::initial::BITS;
use crate::plain::tables::{inverse, Sizes};
use reference::flat::{Filler, FlatKb, Formula, Part, Restriction};
use reference::written::Role;

/// At least as many as there can be.
const PARTS: usize = 16;

pub struct Tables {
    pub sizes: Sizes,
    /// The parts that are existential restrictions.
    exists: u16,
    /// The parts that are universal restrictions.
    forall: u16,
    /// By restriction: what its witness has or lacks.
    pub witnesses: [Mask; PARTS],
    /// What sets of restrictions ask of a right label: of the six lowest parts, and of
    /// those above.
    asked: [[Mask; 64]; 2],
    /// By label: the restrictions whose filler it has.
    filled: Vec<u16>,
    /// The role sets that meet the role inclusions.
    pub closed: Vec<RoleSet>,
    /// Those of them whose inverses do so too.
    pub pairing: Vec<RoleSet>,
}

/// A left label.
pub struct Label {
    number: usize,
    /// The restrictions that need a witness.
    pub needing: u16,
    /// The restrictions that ask something of a right label instead.
    asking: u16,
    /// The restrictions that a right label must have, or must lack, where their role
    /// holds on the way back.
    have: u16,
    lack: u16,
}

#[derive(Clone, Copy)]
pub struct RoleSet {
    number: u16,
    /// The restrictions whose role holds there.
    pub on: u16,
    /// Those whose role holds on the inverse.
    back: u16,
}

impl Tables {
    pub fn of(kb: &FlatKb) -> Self {
        let sizes = Sizes::of(kb);
        let (mut exists, mut forall) = (0, 0);
        let (mut witnesses, mut asked) = ([Mask::ALL; PARTS], [Mask::ALL; PARTS]);
        for (part, what) in kb.parts.iter().enumerate() {
            let bit = 1 << part;
            match what {
                Part::Name | Part::Fresh(_) => {}
                Part::Exists(Restriction { filler, .. }) => {
                    exists |= bit;
                    (witnesses[part], asked[part]) = (Mask::with(*filler), Mask::without(*filler));
                }
                Part::Forall(Restriction { filler, .. }) => {
                    forall |= bit;
                    (witnesses[part], asked[part]) = (Mask::without(*filler), Mask::with(*filler));
                }
            }
        }
        let parts = kb.parts.len();
        let low = parts.min(6);
        let (closed, pairing) = role_sets(kb, sizes);
        Tables {
            sizes,
            exists,
            forall,
            witnesses,
            asked: [together(&asked[..low]), together(&asked[low..parts])],
            filled: filled(kb, sizes),
            closed,
            pairing,
        }
    }

    pub fn label(&self, number: usize) -> Label {
        let label = number as u16;
        let filled = self.filled[number];
        let needing = self.exists & label | self.forall & !label;
        Label {
            number,
            needing,
            asking: (self.exists | self.forall) & !needing,
            have: self.exists & filled,
            lack: self.forall & !filled,
        }
    }

    /// The right labels of the dominoes of one left label and role set, by conditions
    /// 2 and 3.
    pub fn right(&self, left: &Label, roles: &RoleSet) -> Mask {
        let asking = usize::from(left.asking & roles.on);
        self.asked[0][asking % 64].and(self.asked[1][asking / 64 % 64])
    }

    /// The same where their converses meet them too.
    pub fn right_both_ways(&self, left: &Label, roles: &RoleSet) -> Mask {
        let back = Mask::new(left.have & roles.back, left.lack & roles.back);
        self.right(left, roles).and(back)
    }

    /// The number of the first of these dominoes.
    pub fn run(&self, left: &Label, roles: &RoleSet) -> usize {
        (left.number << self.sizes.role_set | usize::from(roles.number)) << self.sizes.label
    }
}

/// What each set of up to six parts asks, by what each part asks.
fn together(asked: &[Mask]) -> [Mask; 64] {
    let mut together = [Mask::ALL; 64];
    for set in 1..1_usize << asked.len() {
        let (first, others) = (set.trailing_zeros() as usize, set & (set - 1));
        together[set] = asked[first].and(together[others]);
    }
    together
}

fn filled(kb: &FlatKb, sizes: Sizes) -> Vec<u16> {
    let by = |filler| {
        let parts = restrictions(kb).filter(|(_, restriction)| restriction.filler == filler);
        parts.fold(0, |parts, (part, _)| parts | 1 << part)
    };
    let by_part: Vec<u16> = (0..kb.parts.len())
        .map(|part| by(Filler::Part(part)))
        .collect();
    let mut filled = vec![by(Filler::Top)];
    for label in 1..sizes.labels() as usize {
        let (first, others) = (label.trailing_zeros() as usize, label & (label - 1));
        filled.push(by_part[first] | filled[others]);
    }
    filled
}

/// The restrictions with their parts.
fn restrictions(kb: &FlatKb) -> impl Iterator<Item = (usize, &Restriction)> {
    let parts = kb.parts.iter().enumerate();
    parts.filter_map(|(part, what)| match what {
        Part::Name | Part::Fresh(_) => None,
        Part::Exists(restriction) | Part::Forall(restriction) => Some((part, restriction)),
    })
}

/// The role sets that meet the role inclusions, and those whose inverses do so too.
fn role_sets(kb: &FlatKb, sizes: Sizes) -> (Vec<RoleSet>, Vec<RoleSet>) {
    let on = on(kb, sizes);
    let meeting = meeting(kb, sizes);
    let meets = |number: usize| meeting[number / 64] >> (number % 64) & 1 == 1;
    let (mut closed, mut pairing) = (Vec::with_capacity(on.len()), Vec::with_capacity(on.len()));
    for (number, &on_it) in on.iter().enumerate().filter(|&(number, _)| meets(number)) {
        let inverse = inverse(number as u64) as usize;
        let roles = RoleSet {
            number: number as u16,
            on: on_it,
            back: on[inverse],
        };
        closed.push(roles);
        if meets(inverse) {
            pairing.push(roles);
        }
    }
    (closed, pairing)
}

/// By role set: the restrictions whose role holds there.
fn on(kb: &FlatKb, sizes: Sizes) -> Vec<u16> {
    let mut on = vec![0; sizes.role_sets() as usize];
    for (part, restriction) in restrictions(kb) {
        for (word, on) in on.chunks_mut(64).enumerate() {
            let holds = role_holds(&restriction.role, word);
            for (bit, on) in on.iter_mut().enumerate() {
                *on |= u16::from(holds >> bit & 1 == 1) << part;
            }
        }
    }
    on
}

/// The set of role sets that meet the role inclusions.
fn meeting(kb: &FlatKb, sizes: Sizes) -> Vec<u64> {
    let meeting = |word| {
        let inclusions = kb.inclusions.iter();
        inclusions.fold(u64::MAX, |sets, inclusion| {
            sets & (!role_holds(&inclusion.first, word) | role_holds(&inclusion.second, word))
        })
    };
    let words = sizes.role_sets().div_ceil(64) as usize;
    (0..words).map(meeting).collect()
}

/// The labels on which the axioms hold: label n is bit n mod 64 of word n / 64.
pub fn good(kb: &FlatKb) -> Vec<u64> {
    let labels = Sizes::of(kb).labels();
    let all = if labels < 64 {
        (1 << labels) - 1
    } else {
        u64::MAX
    };
    let holds = |word| {
        let axioms = kb.axioms.iter();
        axioms.fold(all, |labels, axiom| labels & axiom_holds(axiom, word))
    };
    (0..labels.div_ceil(64) as usize).map(holds).collect()
}

/// On which of the 64 role sets of a word a role holds.
fn role_holds(role: &Role, word: usize) -> u64 {
    match role {
        Role::Name(number) => has_bit(2 * number, word),
        Role::Inverse(number) => has_bit(2 * number + 1, word),
        Role::Not(u) => !role_holds(u, word),
        Role::And(u, v) => role_holds(u, word) & role_holds(v, word),
        Role::Or(u, v) => role_holds(u, word) | role_holds(v, word),
    }
}

/// On which of the 64 labels of a word a flattened axiom holds.
fn axiom_holds(axiom: &Formula, word: usize) -> u64 {
    match axiom {
        Formula::True => u64::MAX,
        Formula::False => 0,
        Formula::Part(part) => has_bit(*part, word),
        Formula::NotPart(part) => !has_bit(*part, word),
        Formula::And(f, g) => axiom_holds(f, word) & axiom_holds(g, word),
        Formula::Or(f, g) => axiom_holds(f, word) | axiom_holds(g, word),
    }
}

/// Which of the 64 numbers of a word have a bit.
fn has_bit(bit: usize, word: usize) -> u64 {
    match BITS.get(bit) {
        Some(&numbers) => numbers,
        None if word >> (bit - BITS.len()) & 1 == 1 => u64::MAX,
        None => 0,
    }
}
