//! What the evening program and the queue program print.

use crate::answer::{judged_with, Answer, Found, Totals, Words};
use crate::source::Source;
use lodhrussi::{Call, Refusal};

/// The words of the programs' set.
const WORDS: usize = 4_096;

/// The longest sheet that a slot of a queue may have.
const LONGEST: usize = 765;

/// The most slots that a queue may have.
pub const MOST_SLOTS: usize = 4_096;

/// A slot tells a length that is too large.
const TOO_LONG: u64 = 14;

/// What the queue program prints last for a queue that it refuses.
pub const QUEUE_REFUSED: &str = "refused 15\n";

/// The answer to a sheet alone.
pub fn alone(source: &Source, words: &mut Words) -> Answer {
    judged_with(WORDS, source.sheet()?, words)
}

/// The answer to a sheet in a slot.
pub fn in_slot(source: &Source, words: &mut Words) -> Answer {
    if source.sheet()?.len() > LONGEST {
        return Err(Refusal {
            call: Call::Judge,
            number: TOO_LONG,
            place: 0,
        });
    }
    alone(source, words)
}

/// What the evening program prints.
pub fn evening(answer: &Answer) -> String {
    let Found { counts, judgement } = match answer {
        Ok(found) => found,
        Err(refusal) => return format!("refused {} at {}\n", refusal.number, refusal.place),
    };
    format!(
        "traits {} fresh {} some {} only {} links {}\nopening {} survivors {}\n{} be met\n",
        counts.traits,
        counts.fresh,
        counts.some,
        counts.only,
        counts.links,
        judgement.opening,
        judgement.survivors,
        if judgement.met { "can" } else { "cannot" }
    )
}

/// What the queue program prints of a slot.
pub fn slot(number: u64, answer: &Answer) -> String {
    match answer {
        Ok(Found { judgement, .. }) => {
            let met = if judgement.met { "met" } else { "unmet" };
            format!("{number} {met} {}\n", judgement.survivors)
        }
        Err(refusal) => format!("{number} refused {}\n", refusal.number),
    }
}

/// What the queue program prints at the end.
pub fn totals(totals: &Totals) -> String {
    let Totals {
        met,
        unmet,
        refused,
        survivors,
    } = totals;
    let sheets = totals.sheets();
    format!("sheets {sheets} met {met} unmet {unmet} refused {refused} survivors {survivors}\n")
}

#[cfg(test)]
mod tests {
    use super::*;
    use comparison::queues;
    use comparison::random::Random;
    use lodhrussi::{Counts, Judgement};

    fn source(bytes: Vec<u8>) -> Source {
        Source {
            name: "f".into(),
            bytes,
            refusal: None,
            notes: vec![],
        }
    }

    #[test]
    fn the_lines_of_a_sheet_alone() {
        let rows: [(&[u8], &str); 4] = [
            (
                &[3, 8],
                "traits 9 fresh 0 some 0 only 0 links 0\n\
                 opening 262144 survivors 262144\ncan be met\n",
            ),
            (
                &[1, 2, 0x20, 0, 1],
                "traits 0 fresh 0 some 0 only 0 links 0\nopening 0 survivors 0\ncannot be met\n",
            ),
            (&[3, 9], "refused 10 at 0\n"),
            (&[3, 0, 4, 0, 5, 1, 1], "refused 7 at 6\n"),
        ];
        for (sheet, expected) in rows {
            let answer = alone(&source(sheet.into()), &mut Words::default());
            assert_eq!(evening(&answer), expected);
        }
    }

    /// No two of the numbers are alike.
    #[test]
    fn the_counts_of_a_sheet_alone() {
        let counts = Counts {
            traits: 1,
            fresh: 2,
            some: 3,
            only: 4,
            links: 5,
        };
        let judgement = Judgement {
            opening: 7,
            survivors: 6,
            met: true,
        };
        let expected =
            "traits 1 fresh 2 some 3 only 4 links 5\nopening 7 survivors 6\ncan be met\n";
        assert_eq!(evening(&Ok(Found { counts, judgement })), expected);
    }

    /// The lines of made-up sheets are those that the reference has for the
    /// queue of them.
    #[test]
    fn the_lines_of_a_queue() {
        let mut random = Random::seeded(92);
        let sheets: Vec<Vec<u8>> = (0..500).map(|_| queues::any_sheet(&mut random)).collect();
        let mut queue = queues::slots(&sheets, &mut random);
        queue.push(queues::END_KIND);
        let (mut words, mut sums, mut printed) = <(Words, Totals, String)>::default();
        for sheet in sheets {
            let answer = in_slot(&source(sheet), &mut words);
            printed += &slot(sums.sheets(), &answer);
            sums.add(&answer);
        }
        printed += &totals(&sums);
        assert_eq!(printed, reference::queue::printed(&queue));
        assert!(
            sums.met > 50 && sums.unmet > 50 && sums.refused > 50,
            "{sums:?}"
        );
        assert!(printed.contains(" refused 14\n"));
    }
}
