//! What is said of a refusal, by its call and number.

use crate::Call;

/// What a sentence is about.
#[derive(Clone, Copy, Debug, PartialEq, Eq)]
pub(super) enum Subject {
    /// The record that starts at the place.
    Record,
    /// The reference at the place.
    Reference,
    Sheet,
    Set,
    Plant,
    DominoNumber,
    List,
    /// The axiom or role inclusion that starts at the place.
    Axiom,
    Output,
    /// The word at the place in a text.
    Word,
    /// The place in a text.
    InText,
    Text,
}

impl Subject {
    /// How the sentence begins.
    pub(super) fn at(self, place: u64) -> String {
        match self {
            Subject::Record => format!("The record at byte {place}"),
            Subject::Reference => format!("The reference at byte {place}"),
            Subject::Sheet => "The sheet".into(),
            Subject::Set => "The set".into(),
            Subject::Plant => "The plant".into(),
            Subject::DominoNumber => "The pairing number".into(),
            Subject::List => "The list".into(),
            Subject::Axiom => format!("The rule at byte {place}"),
            Subject::Output => "The output".into(),
            Subject::Word => format!("The word at byte {place}"),
            Subject::InText => format!("The text at byte {place}"),
            Subject::Text => "The text".into(),
        }
    }
}

/// The subject of a refusal's sentence and what is said of it; none for a
/// number that the call does not answer.
pub(super) fn said(call: Call, number: u64) -> Option<(Subject, &'static str)> {
    match call {
        Call::Import => of_text(number),
        Call::CheckPlant => of_plant(number).or_else(|| of_sheet(number)),
        _ => own(call, number).or_else(|| of_sheet(number)),
    }
}

const SET_TOO_SHORT: (Subject, &str) = (
    Subject::Set,
    "is too short: the sheet's pairings take more words",
);
const OUTPUT_TOO_SHORT: (Subject, &str) =
    (Subject::Output, "is too short for what is to be written");

/// What is said of a text, in the order of reading.
fn of_text(number: u64) -> Option<(Subject, &'static str)> {
    use Subject::{InText, Text, Word};
    Some(match number {
        18 => (Word, "is not known"),
        19 => (
            InText,
            "goes on with what cannot stand there, or ends inside a form",
        ),
        3 => (Text, "takes too many records: a sheet has at most 255"),
        21 => OUTPUT_TOO_SHORT,
        _ => return None,
    })
}

/// What is said of a plant and of the set for its pairings, in the order of
/// checking.
fn of_plant(number: u64) -> Option<(Subject, &'static str)> {
    use Subject::Plant;
    Some(match number {
        10 => SET_TOO_SHORT,
        22 => (
            Plant,
            "has a record of no known kind, or one that is cut off by the end of the plant",
        ),
        23 => (Plant, "has too many items: a plant has at most 1024"),
        24 => (
            Plant,
            "has an item with a bit that is no trait or fresh mark, or a connection that names no \
             earlier item or no known link",
        ),
        25 => (Plant, "has no items"),
        _ => return None,
    })
}

/// What a call alone says of a sheet.
fn own(call: Call, number: u64) -> Option<(Subject, &'static str)> {
    use Call::{DrawPlant, Export, Judge, ListMarks, Open, Settle, Strike};
    use Subject::{Axiom, DominoNumber, List, Sheet};
    Some(match (call, number) {
        (Open | Strike | Settle | Judge | DrawPlant, 10) => SET_TOO_SHORT,
        (Strike, 11) => (
            DominoNumber,
            "is too large: the sheet has no pairing of that number",
        ),
        (ListMarks, 12) => (
            List,
            "is too short: each of the sheet's marks takes three bytes",
        ),
        (Export, 20) => (
            Axiom,
            "is a link rule or has a link with not, and, or; the OWL text of a sheet has neither",
        ),
        (Export | DrawPlant, 21) => OUTPUT_TOO_SHORT,
        (DrawPlant, 26) => (Sheet, "cannot be met: it has no survivors"),
        (DrawPlant, 27) => (
            Sheet,
            "has too many survivors: a plant is drawn of at most 341",
        ),
        _ => return None,
    })
}

/// What every call says that reads a sheet, in the order of reading.
fn of_sheet(number: u64) -> Option<(Subject, &'static str)> {
    use Subject::{Record, Reference, Sheet};
    Some(match number {
        3 => (Record, "is one too many: a sheet has at most 255"),
        1 => (Record, "is of no known kind"),
        2 => (Record, "is cut off by the end of the sheet"),
        4 => (
            Record,
            "has a number that is too large: traits go up to 11, links up to 3",
        ),
        5 => (Reference, "names no earlier record"),
        6 => (Reference, "names a link where a class is wanted"),
        16 => (Reference, "names a class where a link is wanted"),
        17 => (Reference, "names a rule; rules are never named"),
        7 => (
            Reference,
            "names a record that was named before and may be named only once",
        ),
        8 => (
            Record,
            "is a some, only or link rule whose (first) link holds on the empty set of links",
        ),
        9 => (Sheet, "has more than 12 marks and links together"),
        _ => return None,
    })
}
