//! The parts of the flattened knowledge base (document 01: marks).

use crate::tree::{trees, Tree};
use lodhrussi::{Counts, Refusal};
use std::rc::Rc;

/// A part. Its number is its place in the list of [`parts`].
#[derive(Clone, Debug, PartialEq, Eq)]
pub struct Part {
    pub kind: PartKind,
    /// The number of the concept name, or of the record of the filler or
    /// restriction.
    pub number: u8,
    /// Whether that record is read under an odd number of nots.
    pub odd: bool,
    /// The concept that it stands for, in normal form; of a fresh name the
    /// filler.
    pub tree: Rc<Tree>,
}

/// What a part is, in normal form.
#[derive(Clone, Copy, Debug, PartialEq, Eq)]
pub enum PartKind {
    Name,
    Fresh,
    Exists,
    Forall,
}

impl PartKind {
    /// In document 01's words.
    #[must_use]
    pub fn words(self) -> &'static str {
        match self {
            PartKind::Name => "trait",
            PartKind::Fresh => "fresh",
            PartKind::Exists => "some",
            PartKind::Forall => "only",
        }
    }

    fn of(byte: u8) -> Self {
        match byte {
            0 => PartKind::Name,
            1 => PartKind::Fresh,
            2 => PartKind::Exists,
            3 => PartKind::Forall,
            _ => panic!("the library lists a part's kind, and not {byte}"),
        }
    }
}

impl Part {
    /// A part as the library lists it.
    fn of(listed: [u8; 3], trees: &[Rc<Tree>]) -> Self {
        let [kind, number, odd] = listed;
        let (kind, odd) = (PartKind::of(kind), odd != 0);
        let tree = match kind {
            PartKind::Name => Rc::new(Tree::Name(number)),
            _ => trees[usize::from(number)].normal(odd),
        };
        Part {
            kind,
            number,
            odd,
            tree,
        }
    }

    /// The record that it comes from; a concept name comes from none.
    #[must_use]
    pub fn record(&self) -> Option<u8> {
        (self.kind != PartKind::Name).then_some(self.number)
    }
}

/// The parts of a sheet with these counts.
///
/// # Errors
///
/// The refusals of reading it.
pub fn parts(sheet: &[u8], counts: Counts) -> Result<Vec<Part>, Refusal> {
    let mut list = vec![[0; 3]; usize::try_from(counts.marks()).unwrap_or_default()];
    lodhrussi::list_marks(sheet, list.as_flattened_mut())?;
    let trees = trees(sheet);
    let parts = list.into_iter().map(|listed| Part::of(listed, &trees));
    Ok(parts.collect())
}

#[cfg(test)]
mod tests {
    use super::*;
    use crate::names::Names;
    use comparison::made_up;
    use comparison::random::Random;
    use comparison::worked::{from_hex, JUDGED, S3, S4, S5, S6};

    /// Kind, number, parity and text of each part.
    fn told(sheet: &[u8]) -> Vec<(&'static str, u8, bool, String)> {
        let counts = lodhrussi::read(sheet).expect("a sheet without faults");
        let parts = parts(sheet, counts).expect("a sheet without faults");
        let told = |part: Part| {
            let text = part.tree.text(&Names::default());
            (part.kind.words(), part.number, part.odd, text)
        };
        parts.into_iter().map(told).collect()
    }

    #[track_caller]
    fn assert_told(hex: &str, expected: &[(&'static str, u8, bool, &str)]) {
        let told = told(&from_hex(hex));
        let told: Vec<_> = told.iter().map(|(k, n, o, t)| (*k, *n, *o, &**t)).collect();
        assert_eq!(told, expected, "{hex}");
    }

    #[test]
    fn the_parts_of_the_worked_sheets() {
        let t0 = ("trait", 0, false, "t0");
        let some = ("some", 3, false, "some k0 . t0");
        assert_told(JUDGED[0].0, &[]);
        assert_told(JUDGED[1].0, &[t0, some]);
        assert_told(JUDGED[2].0, &[t0, some]);
        let only = ("only", 7, false, "only k0 reversed . nothing");
        assert_told(S3, &[t0, some, only]);
        assert_told(S4, &[("some", 2, true, "some k0 . nothing")]);
        assert_told(S5, &[t0, ("only", 3, false, "only k0 . everything")]);
        let with_fresh = ("some", 3, false, "some k0 . not t0");
        assert_told(S6, &[t0, with_fresh, ("fresh", 2, false, "not t0")]);
        assert_told(JUDGED[7].0, &[t0]);
    }

    #[test]
    fn parts_under_a_not_are_in_normal_form() {
        // every (some k0 . (t0 and only k0 . not t1)) is nothing
        let sheet = "10 00 03 00 03 01 04 02 08 00 03 05 01 04 07 00 05 02 20 06 07";
        let expected = [
            ("trait", 0, false, "t0"),
            ("trait", 1, false, "t1"),
            ("only", 6, true, "only k0 . (not t0 or some k0 . t1)"),
            ("fresh", 5, true, "not t0 or some k0 . t1"),
            ("some", 4, true, "some k0 . t1"),
        ];
        assert_told(sheet, &expected);
        // every (only (k0 and not k1) . not t0) is not some k0 . everything
        let sheet = "10 00 10 01 12 01 13 00 02 03 00 04 04 08 03 05 01 07 00 07 04 08 20 06 09";
        let expected = [
            ("trait", 0, false, "t0"),
            ("some", 6, true, "some (k0 and not k1) . t0"),
            ("only", 8, true, "only k0 . nothing"),
        ];
        assert_told(sheet, &expected);
    }

    /// Whether nots stand before names alone.
    fn is_normal(tree: &Tree) -> bool {
        match tree {
            Tree::Not(c) => matches!(**c, Tree::Name(_)),
            Tree::And(c, d) | Tree::Or(c, d) => is_normal(c) && is_normal(d),
            Tree::Exists(_, c) | Tree::Forall(_, c) => is_normal(c),
            Tree::Top | Tree::Bottom | Tree::Name(_) => true,
            Tree::Role(_) | Tree::Inverse(_) => false,
            Tree::Axiom(..) | Tree::Inclusion(..) => false,
        }
    }

    #[test]
    fn parts_of_made_up_sheets_are_what_their_kind_says() {
        let mut random = Random::seeded(23);
        let mut seen = 0;
        for _ in 0..3000 {
            let sheet = made_up::sheet(&mut random).bytes;
            let Ok(counts) = lodhrussi::read(&sheet) else {
                continue;
            };
            for part in parts(&sheet, counts).expect("a sheet without faults") {
                assert!(is_normal(&part.tree), "{:?}", part.tree);
                let kind = match *part.tree {
                    Tree::Name(_) => PartKind::Name,
                    Tree::Exists(..) if part.kind != PartKind::Fresh => PartKind::Exists,
                    Tree::Forall(..) if part.kind != PartKind::Fresh => PartKind::Forall,
                    _ => PartKind::Fresh,
                };
                assert_eq!(kind, part.kind);
                seen += 1;
            }
        }
        assert!(seen > 5000, "{seen} parts");
    }
}
