//! A sheet as plants are drawn for it.

use super::sheet;
use crate::inclusions;
use crate::random::Random;
use reference::domino::{Domino, Shape};
use reference::{judge, list_marks, read, Counts};
use std::collections::BTreeMap;

/// The most parts and roles together for which survivors are worked out.
const JUDGED: u64 = 9;

/// Which roles may stand between two labels, by these.
type RoleSets = BTreeMap<(u64, u64), Vec<u64>>;

/// A set of dominoes from which plants are drawn.
#[derive(Default)]
pub struct Survivors {
    /// In rising order.
    pub dominoes: Vec<Domino>,
    /// Left labels.
    pub labels: Vec<u64>,
    role_sets: RoleSets,
}

impl Survivors {
    /// Those of the judged sheet.
    fn of(sheet: &[u8], shape: Shape) -> Self {
        let mut set = vec![0; shape.words()];
        judge(sheet, &mut set).expect("a set long enough");
        let mut survivors = Survivors::default();
        for domino in shape.members(&set) {
            survivors.dominoes.push(domino);
            if survivors.labels.last() != Some(&domino.left) {
                survivors.labels.push(domino.left);
            }
            let between = survivors.role_sets.entry((domino.left, domino.right));
            between.or_default().push(domino.roles);
        }
        survivors
    }

    /// One of the role sets from a label to another, if there is any.
    pub fn roles(&self, left: u64, right: u64, random: &mut Random) -> Option<u64> {
        let role_sets = self.role_sets.get(&(left, right))?;
        Some(random.pick(role_sets))
    }
}

/// A sheet that is accepted.
pub struct Ground {
    pub sheet: Vec<u8>,
    pub counts: Counts,
    pub shape: Shape,
    /// The bits that an individual's record may set.
    pub free: u16,
    /// What judging leaves; nothing of a large sheet.
    pub survivors: Survivors,
    /// What judging leaves without the role inclusions, if there are any.
    pub without_inclusions: Survivors,
}

impl Ground {
    /// That of a made-up sheet whose parts and roles come to at most `size`; mostly
    /// of one that is met.
    #[must_use]
    pub fn small(size: usize, random: &mut Random) -> Self {
        loop {
            let ground = Ground::of(sheet(size, random));
            if !ground.survivors.labels.is_empty() || random.one_in(4) {
                return ground;
            }
        }
    }

    /// That of a sheet.
    ///
    /// # Panics
    ///
    /// If the sheet is refused.
    #[must_use]
    pub fn of(sheet: Vec<u8>) -> Self {
        let counts = read(&sheet).expect("a sheet without faults");
        let shape = counts.shape();
        let mut list = vec![0; 3 * shape.parts];
        list_marks(&sheet, &mut list).expect("a list long enough");
        let kinds = list.chunks_exact(3).map(|part| part[0]);
        let free = kinds.enumerate().filter(|&(_, kind)| kind < 2);
        let free = free.fold(0, |set, (part, _)| set | 1 << part);
        let (mut survivors, mut without_inclusions) = Default::default();
        if counts.marks() + counts.links <= JUDGED {
            survivors = Survivors::of(&sheet, shape);
            if inclusions::has_any(&sheet) {
                without_inclusions = Survivors::of(&inclusions::without(&sheet), shape);
            }
        }
        Ground {
            sheet,
            counts,
            shape,
            free,
            survivors,
            without_inclusions,
        }
    }
}
