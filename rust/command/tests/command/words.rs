//! The words for counts, and for the reference's trees and parts without names.

use reference::flat::{Filler, FlatKb, Normal, Part, Restriction};
use reference::written::{Axiom, Concept, Inclusion, Role};

/// So many things.
pub fn count(number: u64, thing: &str) -> String {
    let plural = if number == 1 { "" } else { "s" };
    format!("{number} {thing}{plural}")
}

/// A text with how tightly it holds together: 2, or 1 for an and, 0 for an or.
struct Text(String, u8);

impl Text {
    /// It, in parentheses if it holds less tightly than that.
    fn within(self, least: u8) -> String {
        match self {
            Text(text, held) if held < least => format!("({text})"),
            Text(text, _) => text,
        }
    }
}

fn word(word: impl Into<String>) -> Text {
    Text(word.into(), 2)
}

fn not(of: Text) -> Text {
    Text(format!("not {}", of.within(2)), 2)
}

/// Of several ands, and of several ors, the left ones come first.
fn and(left: Text, right: Text) -> Text {
    Text(format!("{} and {}", left.within(1), right.within(2)), 1)
}

fn or(left: Text, right: Text) -> Text {
    Text(format!("{} or {}", left.within(0), right.within(1)), 0)
}

fn restriction(word: &str, role: Text, filler: Text) -> Text {
    Text(
        format!("{word} {} . {}", role.within(2), filler.within(2)),
        2,
    )
}

fn of_role(role: &Role) -> Text {
    match role {
        Role::Name(number) => word(format!("k{number}")),
        Role::Inverse(number) => word(format!("k{number} reversed")),
        Role::Not(u) => not(of_role(u)),
        Role::And(u, v) => and(of_role(u), of_role(v)),
        Role::Or(u, v) => or(of_role(u), of_role(v)),
    }
}

fn of_concept(concept: &Concept) -> Text {
    match concept {
        Concept::Top => word("everything"),
        Concept::Bottom => word("nothing"),
        Concept::Name(number) => word(format!("t{number}")),
        Concept::Not(c) => not(of_concept(c)),
        Concept::And(c, d) => and(of_concept(c), of_concept(d)),
        Concept::Or(c, d) => or(of_concept(c), of_concept(d)),
        Concept::Exists(u, c) => restriction("some", of_role(u), of_concept(c)),
        Concept::Forall(u, c) => restriction("only", of_role(u), of_concept(c)),
    }
}

fn of_normal(concept: &Normal) -> Text {
    match concept {
        Normal::Top => word("everything"),
        Normal::Bottom => word("nothing"),
        Normal::Name(number) => word(format!("t{number}")),
        Normal::NotName(number) => not(word(format!("t{number}"))),
        Normal::And(c, d) => and(of_normal(c), of_normal(d)),
        Normal::Or(c, d) => or(of_normal(c), of_normal(d)),
        Normal::Exists(u, c) => restriction("some", of_role(u), of_normal(c)),
        Normal::Forall(u, c) => restriction("only", of_role(u), of_normal(c)),
    }
}

/// The words for a role as written.
pub fn role(role: &Role) -> String {
    of_role(role).within(0)
}

/// The words for a concept as written.
pub fn concept(concept: &Concept) -> String {
    of_concept(concept).within(0)
}

/// The words for an axiom as written.
pub fn axiom(axiom: &Axiom) -> String {
    format!(
        "every {} is {}",
        concept(&axiom.left),
        concept(&axiom.right)
    )
}

/// The words for a role inclusion as written.
pub fn inclusion(inclusion: &Inclusion) -> String {
    let [first, second] = [&inclusion.first, &inclusion.second].map(|u| of_role(u).within(2));
    format!("{first} within {second}")
}

/// The words for the parts, in normal form.
pub fn parts(kb: &FlatKb) -> Vec<String> {
    (0..kb.parts.len())
        .map(|number| of_part(kb, number).within(0))
        .collect()
}

fn of_part(kb: &FlatKb, number: usize) -> Text {
    let of_restriction = |word, Restriction { role, filler }: &Restriction| {
        restriction(word, of_role(role), of_filler(kb, *filler))
    };
    match &kb.parts[number] {
        Part::Name => word(format!("t{number}")),
        Part::Fresh(concept) => of_normal(concept),
        Part::Exists(restriction) => of_restriction("some", restriction),
        Part::Forall(restriction) => of_restriction("only", restriction),
    }
}

fn of_filler(kb: &FlatKb, filler: Filler) -> Text {
    match filler {
        Filler::Top => word("everything"),
        Filler::Bottom => word("nothing"),
        Filler::Part(number) => of_part(kb, number),
    }
}
