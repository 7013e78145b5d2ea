//! What a sheet holds, for people and for programs.

use crate::json::Object;
use lodhrussi::Counts;

/// How many parts (document 01: marks) there are, in all and by kind, and how
/// many roles.
pub fn phrase(counts: Counts) -> String {
    let marks = counts.marks();
    let Counts {
        traits,
        fresh,
        some,
        only,
        links,
    } = counts;
    format!(
        "marks {marks} (traits {traits}, fresh {fresh}, some {some}, only {only}), links {links}"
    )
}

/// Puts them into an object.
pub fn put(counts: Counts, object: Object) -> Object {
    object
        .number("traits", counts.traits)
        .number("fresh", counts.fresh)
        .number("some", counts.some)
        .number("only", counts.only)
        .number("links", counts.links)
        .number("marks", counts.marks())
}

#[cfg(test)]
mod tests {
    use super::*;

    /// Five numbers and a sum of which no two are alike.
    const COUNTS: Counts = Counts {
        traits: 1,
        fresh: 2,
        some: 3,
        only: 4,
        links: 5,
    };

    #[test]
    fn for_people() {
        let expected = "marks 10 (traits 1, fresh 2, some 3, only 4), links 5";
        assert_eq!(phrase(COUNTS), expected);
    }

    #[test]
    fn for_programs() {
        let object = put(COUNTS, Object::default().text("answer", "met"));
        let expected = r#"{"answer":"met","traits":1,"fresh":2,"some":3,"only":4,"links":5,"#
            .to_string()
            + r#""marks":10}"#;
        assert_eq!(object.to_string(), expected);
    }
}
