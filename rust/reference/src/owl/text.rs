//! Axioms as a text, one a line.

use crate::written::{Axiom, Concept, Role};
use std::fmt;

/// Whether an axiom has a role with not, and, or.
pub(super) fn has_boolean_role(axiom: &Axiom) -> bool {
    is_boolean(&axiom.left) || is_boolean(&axiom.right)
}

/// Whether a concept has such a role.
fn is_boolean(concept: &Concept) -> bool {
    match concept {
        Concept::Top | Concept::Bottom | Concept::Name(_) => false,
        Concept::Not(c) => is_boolean(c),
        Concept::And(c, d) | Concept::Or(c, d) => is_boolean(c) || is_boolean(d),
        Concept::Exists(u, c) | Concept::Forall(u, c) => {
            !matches!(**u, Role::Name(_) | Role::Inverse(_)) || is_boolean(c)
        }
    }
}

/// The lines of axioms without such a role.
pub(super) fn lines(axioms: &[Axiom]) -> String {
    let line = |axiom: &Axiom| format!("SubClassOf({} {})\n", Of(&*axiom.left), Of(&*axiom.right));
    axioms.iter().map(line).collect()
}

/// Displays a concept or a role.
struct Of<'a, T>(&'a T);

impl fmt::Display for Of<'_, Concept> {
    fn fmt(&self, f: &mut fmt::Formatter<'_>) -> fmt::Result {
        match self.0 {
            Concept::Top => f.write_str("owl:Thing"),
            Concept::Bottom => f.write_str("owl:Nothing"),
            Concept::Name(number) => write!(f, ":t{number}"),
            Concept::Not(c) => write!(f, "ObjectComplementOf({})", Of(&**c)),
            Concept::And(c, d) => {
                write!(f, "ObjectIntersectionOf({} {})", Of(&**c), Of(&**d))
            }
            Concept::Or(c, d) => write!(f, "ObjectUnionOf({} {})", Of(&**c), Of(&**d)),
            Concept::Exists(u, c) => {
                write!(f, "ObjectSomeValuesFrom({} {})", Of(&**u), Of(&**c))
            }
            Concept::Forall(u, c) => {
                write!(f, "ObjectAllValuesFrom({} {})", Of(&**u), Of(&**c))
            }
        }
    }
}

impl fmt::Display for Of<'_, Role> {
    fn fmt(&self, f: &mut fmt::Formatter<'_>) -> fmt::Result {
        match self.0 {
            Role::Name(number) => write!(f, ":k{number}"),
            Role::Inverse(number) => write!(f, "ObjectInverseOf(:k{number})"),
            _ => unreachable!("a Boolean role is not written"),
        }
    }
}
