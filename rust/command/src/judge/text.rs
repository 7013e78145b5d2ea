//! Answers for people.

use crate::answer::{Answer, Found, Totals};
use crate::count::count;
use crate::picture;
use crate::source::Source;
use crate::summary;
use lodhrussi::Judgement;

/// The verdict, the counts and a sentence.
pub fn whole(found: &Found) -> String {
    let Found { counts, judgement } = found;
    format!(
        "{}\n{}; opening {}, survivors {}\n{}\n",
        verdict(judgement),
        summary::phrase(*counts),
        judgement.opening,
        judgement.survivors,
        sentence(judgement)
    )
}

/// A line about one of several files.
pub fn line(source: &Source, answer: &Answer) -> String {
    let name = &source.name;
    match answer {
        Ok(Found { judgement, .. }) => {
            let (verdict, survivors) = (verdict(judgement), judgement.survivors);
            let opening = count(judgement.opening, "pairing");
            format!("{name}: {verdict}, {survivors} of {opening} left")
        }
        Err(refusal) => {
            let told = picture::told(refusal);
            format!("{name}: {told}: {}", refusal.explain(&source.bytes))
        }
    }
}

/// The last line about several files.
pub fn totals(totals: &Totals) -> String {
    let Totals {
        met,
        unmet,
        refused,
        survivors,
    } = *totals;
    let (sheets, survivors) = (
        count(totals.sheets(), "sheet"),
        count(survivors, "survivor"),
    );
    format!("{sheets}: {met} can be met, {unmet} cannot be met, {refused} refused; {survivors}")
}

fn verdict(judgement: &Judgement) -> &'static str {
    if judgement.met {
        "can be met"
    } else {
        "cannot be met"
    }
}

fn sentence(judgement: &Judgement) -> String {
    let plant = if judgement.met { "Some" } else { "No" };
    let standing = standing(judgement.opening, judgement.survivors);
    format!("{plant} finite plant of at least one item keeps all rules of this sheet: {standing}.")
}

/// How many of the initial dominoes are canonical.
fn standing(opening: u64, survivors: u64) -> String {
    let open = match opening {
        0 => return "every pairing breaks a rule by itself".into(),
        1 => "the one pairing that breaks no rule by itself".into(),
        _ => format!("of the {opening} pairings that break no rule by themselves"),
    };
    match (opening, survivors) {
        (1, 0) => format!("{open} cannot stand"),
        (1, _) => format!("{open} can stand"),
        (_, 0) => format!("{open} none can stand together"),
        (_, 1) => format!("{open} 1 can stand"),
        _ => format!("{open} {survivors} can stand together"),
    }
}

#[cfg(test)]
mod tests {
    use super::*;
    use crate::answer::{judged, Words};
    use lodhrussi::Counts;

    /// What is said for people of a judgement alone.
    fn told(opening: u64, survivors: u64) -> String {
        let met = survivors > 0;
        let found = Found {
            counts: Counts {
                traits: 2,
                fresh: 0,
                some: 1,
                only: 4,
                links: 3,
            },
            judgement: Judgement {
                opening,
                survivors,
                met,
            },
        };
        whole(&found)
    }

    #[test]
    fn a_whole_answer() {
        let expected = "can be met\n\
            marks 7 (traits 2, fresh 0, some 1, only 4), links 3; opening 32, survivors 16\n\
            Some finite plant of at least one item keeps all rules of this sheet: of the 32 \
            pairings that break no rule by themselves 16 can stand together.\n";
        assert_eq!(told(32, 16), expected);
        let expected = "cannot be met\n\
            marks 7 (traits 2, fresh 0, some 1, only 4), links 3; opening 16, survivors 0\n\
            No finite plant of at least one item keeps all rules of this sheet: of the 16 \
            pairings that break no rule by themselves none can stand together.\n";
        assert_eq!(told(16, 0), expected);
    }

    #[test]
    fn one_and_none() {
        let rows = [
            (0, 0, "every pairing breaks a rule by itself"),
            (
                1,
                0,
                "the one pairing that breaks no rule by itself cannot stand",
            ),
            (
                1,
                1,
                "the one pairing that breaks no rule by itself can stand",
            ),
            (
                2,
                0,
                "of the 2 pairings that break no rule by themselves none can stand together",
            ),
            (
                2,
                1,
                "of the 2 pairings that break no rule by themselves 1 can stand",
            ),
            (
                2,
                2,
                "of the 2 pairings that break no rule by themselves 2 can stand together",
            ),
        ];
        for (opening, survivors, expected) in rows {
            assert_eq!(standing(opening, survivors), expected);
        }
    }

    fn line_of(sheet: &[u8]) -> String {
        let source = Source {
            name: "f".into(),
            bytes: sheet.into(),
            refusal: None,
            notes: vec![],
        };
        line(&source, &judged(sheet, &mut Words::default()))
    }

    #[test]
    fn lines() {
        assert_eq!(line_of(&[]), "f: can be met, 1 of 1 pairing left");
        assert_eq!(line_of(&[3, 0]), "f: can be met, 4 of 4 pairings left");
        let nothing = [1, 2, 0x20, 0, 1];
        assert_eq!(line_of(&nothing), "f: cannot be met, 0 of 0 pairings left");
        assert_eq!(
            line_of(&[4, 0]),
            "f: refused 5 at byte 1: The reference at byte 1 names no earlier record. Byte 1 is \
             00, the only reference of record 0 (04, not of a class, at byte 0): it names record \
             0, and no record comes before."
        );
        assert!(line_of(&[3, 11, 0x10, 0]).starts_with("f: refused 9: The sheet has "));
    }

    #[test]
    fn the_last_line() {
        let told = totals(&Totals {
            met: 2,
            unmet: 1,
            refused: 3,
            survivors: 40,
        });
        assert_eq!(
            told,
            "6 sheets: 2 can be met, 1 cannot be met, 3 refused; 40 survivors"
        );
        let told = totals(&Totals {
            met: 1,
            survivors: 1,
            ..Totals::default()
        });
        assert_eq!(
            told,
            "1 sheet: 1 can be met, 0 cannot be met, 0 refused; 1 survivor"
        );
    }
}
