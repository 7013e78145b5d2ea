use std::fmt;

/// The condition that a struck domino failed: the first, in the order of
/// [`ALL`](Self::ALL). Displayed as a sentence in document 01's words.
///
/// ```
/// use lodhrussi::Condition;
///
/// assert_eq!(Condition::Delex.number(), 4);
/// assert_eq!(Condition::Delex.name(), "delex");
/// assert_eq!(Condition::Delex.to_string(), "A partner for a 'some' claim is missing.");
/// ```
#[derive(Clone, Copy, Debug, PartialEq, Eq, Hash)]
#[non_exhaustive]
pub enum Condition {
    /// 1: every flattened axiom is true on the left label.
    Kb,
    /// 2: the left label has each existential restriction whose role holds
    /// between the two and whose filler is in the right label.
    Ex,
    /// 3: the right label has the filler of each universal restriction of the
    /// left label whose role holds between the two.
    Uni,
    /// 7, tested before 4: where the first role of a role inclusion holds between
    /// the two, so does the second.
    Rbox,
    /// 4: the set has a witness for each existential restriction of the left
    /// label.
    Delex,
    /// 5: the set has a witness against each universal restriction that the
    /// left label lacks.
    Deluni,
    /// 6: the set has the converse.
    Sym,
}

impl Condition {
    /// All of them, in the order in which they are tested.
    pub const ALL: [Condition; 7] = [
        Condition::Kb,
        Condition::Ex,
        Condition::Uni,
        Condition::Rbox,
        Condition::Delex,
        Condition::Deluni,
        Condition::Sym,
    ];

    /// Its number in documents 01 and 02, 1 to 7.
    #[must_use]
    pub fn number(self) -> u64 {
        match self {
            Condition::Kb => 1,
            Condition::Ex => 2,
            Condition::Uni => 3,
            Condition::Rbox => 7,
            Condition::Delex => 4,
            Condition::Deluni => 5,
            Condition::Sym => 6,
        }
    }

    /// Document 01's name of it; 7, which is not there, has 002's name for the
    /// role inclusions.
    #[must_use]
    pub fn name(self) -> &'static str {
        match self {
            Condition::Kb => "kb",
            Condition::Ex => "ex",
            Condition::Uni => "uni",
            Condition::Rbox => "rbox",
            Condition::Delex => "delex",
            Condition::Deluni => "deluni",
            Condition::Sym => "sym",
        }
    }

    /// The condition that the library answers as a number.
    pub(crate) fn of(number: u64) -> Self {
        let found = Self::ALL.into_iter().find(|c| c.number() == number);
        found.expect("the library answers a condition's number")
    }
}

impl fmt::Display for Condition {
    fn fmt(&self, f: &mut fmt::Formatter<'_>) -> fmt::Result {
        f.write_str(match self {
            Condition::Kb => "The left side breaks a rule of the sheet.",
            Condition::Ex => "The left side lacks a 'some' claim that the right side meets.",
            Condition::Uni => "The right side breaks an 'only' claim of the left side.",
            Condition::Rbox => "The links between the two sides break a link rule of the sheet.",
            Condition::Delex => "A partner for a 'some' claim is missing.",
            Condition::Deluni => {
                "The left side lacks an 'only' claim, and a partner that would break it is missing."
            }
            Condition::Sym => "Its mirror image is missing.",
        })
    }
}

#[cfg(test)]
mod tests {
    use super::*;
    use std::collections::HashSet;

    #[test]
    fn each_condition_has_its_number_its_name_and_its_own_sentence() {
        let numbers = Condition::ALL.map(Condition::number);
        assert_eq!(numbers, [1, 2, 3, 7, 4, 5, 6]);
        let names = Condition::ALL.map(Condition::name);
        let expected = ["kb", "ex", "uni", "rbox", "delex", "deluni", "sym"];
        assert_eq!(names, expected);
        assert_eq!(numbers.map(Condition::of), Condition::ALL);
        let sentences: HashSet<String> = Condition::ALL.iter().map(ToString::to_string).collect();
        assert_eq!(sentences.len(), 7);
        assert!(sentences.iter().all(|sentence| sentence.ends_with('.')));
    }
}
