//! In a canonical set the converse of each domino is there too, so that each
//! right label is a left label (document 02, N5). Initial sets are often not so.

use comparison::random::Random;
use comparison::suites::{report, times};
use comparison::{few_axioms, made_up, worked};
use reference::domino::{has, Domino, Shape};
use reference::{judge, open, read};
use std::collections::HashSet;
use std::fmt;

const SHEETS: u64 = 30_000;

/// What parts and roles come to at most.
const MOST: usize = 6;

type Dominoes = HashSet<Domino>;

fn members(shape: Shape, set: &[u64]) -> Dominoes {
    let numbers = (0..shape.dominoes()).filter(|&number| has(set, number));
    numbers.map(|number| shape.domino(number)).collect()
}

/// The initial and the canonical set of a sheet.
fn initial_and_canonical(sheet: &[u8]) -> [Dominoes; 2] {
    let counts = read(sheet).expect("a sheet without faults");
    let shape = counts.shape();
    let mut set = vec![0; shape.words()];
    open(sheet, &mut set).expect("a set long enough");
    let initial = members(shape, &set);
    judge(sheet, &mut set).expect("a set long enough");
    [initial, members(shape, &set)]
}

/// How many dominoes have their converse outside the set.
fn without_converse(set: &Dominoes) -> usize {
    let is_without = |domino: &&Domino| !set.contains(&domino.converse());
    set.iter().filter(is_without).count()
}

/// How many dominoes have a right label that is the left label of none.
fn stranded(set: &Dominoes) -> usize {
    let left: HashSet<u64> = set.iter().map(|domino| domino.left).collect();
    let is_stranded = |domino: &&Domino| !left.contains(&domino.right);
    set.iter().filter(is_stranded).count()
}

#[derive(Default)]
struct Tally {
    sheets: u64,
    /// Those whose initial set has a domino without its converse.
    without_converse: u64,
    /// Those whose initial set has a stranded domino.
    stranding: u64,
    /// Those whose canonical set has a domino.
    met: u64,
    /// Of these, those whose initial set has a stranded domino.
    met_and_stranding: u64,
    /// The dominoes of all canonical sets.
    survivors: u64,
}

impl Tally {
    fn check(&mut self, sheet: &[u8]) {
        let [initial, canonical] = initial_and_canonical(sheet);
        assert_eq!(without_converse(&canonical), 0, "{sheet:02X?}");
        assert_eq!(stranded(&canonical), 0, "{sheet:02X?}");
        let (met, stranding) = (!canonical.is_empty(), stranded(&initial) > 0);
        self.sheets += 1;
        self.without_converse += u64::from(without_converse(&initial) > 0);
        self.stranding += u64::from(stranding);
        self.met += u64::from(met);
        self.met_and_stranding += u64::from(met && stranding);
        self.survivors += canonical.len() as u64;
    }
}

impl fmt::Display for Tally {
    fn fmt(&self, f: &mut fmt::Formatter<'_>) -> fmt::Result {
        write!(
            f,
            "{} sheets, {} met with {} survivors, each with its converse; initial sets with a \
             domino without its converse: {}, with one whose right label is no left label: {} \
             ({} of these met)",
            self.sheets,
            self.met,
            self.survivors,
            self.without_converse,
            self.stranding,
            self.met_and_stranding
        )
    }
}

#[test]
fn converses_survive() {
    let mut random = Random::seeded(15);
    let mut tally = Tally::default();
    for (hex, ..) in worked::JUDGED {
        tally.check(&worked::from_hex(hex));
    }
    for turn in 0..times(SHEETS) {
        let size = 1 + turn as usize / 2 % MOST;
        let sheet = match turn % 2 {
            0 => made_up::small_sheet(size, &mut random),
            _ => few_axioms::sheet(size, &mut random),
        };
        tally.check(&sheet);
    }
    report("converses", &tally);
    assert!(tally.stranding >= 11_000, "{tally}");
    assert!(
        tally.met >= 14_000 && tally.met_and_stranding >= 10_000,
        "{tally}"
    );
}

/// Each of the two left labels stands beside any role set and any right label;
/// half of the right labels lack the restriction.
#[test]
fn s1_before_and_after() {
    let [initial, canonical] = initial_and_canonical(&worked::from_hex(worked::S1));
    assert_eq!((initial.len(), canonical.len()), (32, 16));
    assert_eq!((without_converse(&initial), stranded(&initial)), (16, 16));
    assert_eq!((without_converse(&canonical), stranded(&canonical)), (0, 0));
}

#[test]
fn a_converse_by_its_definition() {
    let shape = Shape { parts: 1, roles: 4 };
    let numbers = 0..shape.dominoes();
    for domino in numbers.map(|number| shape.domino(number)) {
        let converse = domino.converse();
        assert_eq!((converse.left, converse.right), (domino.right, domino.left));
        assert!(converse.roles < shape.role_sets());
        for role in 0..shape.roles {
            let (role, inverse) = (2 * role, 2 * role + 1);
            assert_eq!(converse.roles >> role & 1, domino.roles >> inverse & 1);
            assert_eq!(converse.roles >> inverse & 1, domino.roles >> role & 1);
        }
    }
}
