//! The tree that a record stands for, its normal form, and its text.

#[cfg(test)]
mod tests;

use crate::names::Names;
use lodhrussi::records::{records, Record};
use std::rc::Rc;

/// What a record stands for: a concept, a role, an axiom or a role inclusion.
#[derive(Clone, Debug, PartialEq, Eq)]
pub enum Tree {
    /// Written as everything.
    Top,
    /// Written as nothing.
    Bottom,
    /// A concept name.
    Name(u8),
    Role(u8),
    /// Written as a role reversed.
    Inverse(u8),
    Not(Rc<Tree>),
    And(Rc<Tree>, Rc<Tree>),
    Or(Rc<Tree>, Rc<Tree>),
    /// A role and a filler, written as some.
    Exists(Rc<Tree>, Rc<Tree>),
    /// A role and a filler, written as only.
    Forall(Rc<Tree>, Rc<Tree>),
    /// Written as a rule: every first is second.
    Axiom(Rc<Tree>, Rc<Tree>),
    /// A role inclusion, written as a link rule: first within second.
    Inclusion(Rc<Tree>, Rc<Tree>),
}

/// How tightly an operator binds, loosest first.
#[derive(Clone, Copy, PartialEq, Eq, PartialOrd, Ord)]
enum Binding {
    Or,
    And,
    Not,
}

/// The trees of a sheet's records, up to the first that names no earlier one, is
/// cut off or is of no known kind. Their sorts are not checked.
#[must_use]
pub fn trees(sheet: &[u8]) -> Vec<Rc<Tree>> {
    let mut trees = Vec::new();
    for record in records(sheet) {
        match Tree::of(&record, &trees) {
            Some(tree) => trees.push(Rc::new(tree)),
            None => break,
        }
    }
    trees
}

impl Tree {
    /// The tree of a record that names `earlier` ones.
    fn of(record: &Record<'_>, earlier: &[Rc<Tree>]) -> Option<Self> {
        let number = |field: usize| record.body.get(field).copied();
        let named = |field| earlier.get(usize::from(number(field)?)).cloned();
        Some(match record.byte {
            0x01 => Tree::Top,
            0x02 => Tree::Bottom,
            0x03 => Tree::Name(number(0)?),
            0x10 => Tree::Role(number(0)?),
            0x11 => Tree::Inverse(number(0)?),
            0x04 | 0x12 => Tree::Not(named(0)?),
            0x05 | 0x13 => Tree::And(named(0)?, named(1)?),
            0x06 | 0x14 => Tree::Or(named(0)?, named(1)?),
            0x07 => Tree::Exists(named(0)?, named(1)?),
            0x08 => Tree::Forall(named(0)?, named(1)?),
            0x20 => Tree::Axiom(named(0)?, named(1)?),
            0x21 => Tree::Inclusion(named(0)?, named(1)?),
            _ => return None,
        })
    }

    /// The negation normal form of a concept, or of its negation.
    #[must_use]
    pub fn normal(self: &Rc<Self>, negated: bool) -> Rc<Self> {
        let normal = |concept: &Rc<Tree>| concept.normal(negated);
        Rc::new(match (self.as_ref(), negated) {
            (Tree::Not(c), _) => return c.normal(!negated),
            (Tree::Top, true) => Tree::Bottom,
            (Tree::Bottom, true) => Tree::Top,
            (Tree::Name(_), true) => Tree::Not(Rc::clone(self)),
            (Tree::And(c, d), false) | (Tree::Or(c, d), true) => Tree::And(normal(c), normal(d)),
            (Tree::Or(c, d), false) | (Tree::And(c, d), true) => Tree::Or(normal(c), normal(d)),
            (Tree::Exists(u, c), false) | (Tree::Forall(u, c), true) => {
                Tree::Exists(Rc::clone(u), normal(c))
            }
            (Tree::Forall(u, c), false) | (Tree::Exists(u, c), true) => {
                Tree::Forall(Rc::clone(u), normal(c))
            }
            _ => return Rc::clone(self),
        })
    }

    /// In document 01's words, with these names put in. Not, some and only bind
    /// tightest, then and, then or; and and or group to the left.
    #[must_use]
    pub fn text(&self, names: &Names) -> String {
        let mut text = String::new();
        self.write(names, Binding::Or, &mut text);
        text
    }

    fn binding(&self) -> Binding {
        match self {
            Tree::Or(..) => Binding::Or,
            Tree::And(..) => Binding::And,
            _ => Binding::Not,
        }
    }

    /// Adds the text, in parentheses if it binds more loosely than is wanted.
    fn write(&self, names: &Names, wanted: Binding, text: &mut String) {
        let loose = self.binding() < wanted;
        if loose {
            text.push('(');
        }
        self.write_bare(names, text);
        if loose {
            text.push(')');
        }
    }

    fn write_bare(&self, names: &Names, text: &mut String) {
        use Binding::{And, Not, Or};
        let mut put = |before: &str, tree: &Tree, wanted| {
            text.push_str(before);
            tree.write(names, wanted, text);
        };
        match self {
            Tree::Top => text.push_str("everything"),
            Tree::Bottom => text.push_str("nothing"),
            Tree::Name(number) => text.push_str(&names.name(*number)),
            Tree::Role(number) => text.push_str(&names.role(*number)),
            Tree::Inverse(number) => text.push_str(&names.inverse(*number)),
            Tree::Not(c) => put("not ", c, Not),
            Tree::And(c, d) => {
                put("", c, And);
                put(" and ", d, Not);
            }
            Tree::Or(c, d) => {
                put("", c, Or);
                put(" or ", d, And);
            }
            Tree::Exists(u, c) => {
                put("some ", u, Not);
                put(" . ", c, Not);
            }
            Tree::Forall(u, c) => {
                put("only ", u, Not);
                put(" . ", c, Not);
            }
            Tree::Axiom(c, d) => {
                put("every ", c, Or);
                put(" is ", d, Or);
            }
            Tree::Inclusion(u, v) => {
                put("", u, Not);
                put(" within ", v, Not);
            }
        }
    }
}
