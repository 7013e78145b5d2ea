//! What a call can refuse.

/// A refusal: its number and its place. The place of a reference's fault (5, 6,
/// 7, 16, 17) is that reference's byte (document 02, N6), of another fault of a
/// record (1 to 4, 8, 20) the byte where the record starts, of a fault of a text
/// (18, 19) its byte there (N7); all else, and 3 of a text, has 0.
#[derive(Clone, Copy, Debug, PartialEq, Eq)]
pub struct Refusal {
    pub number: u64,
    pub place: u64,
}

impl Refusal {
    /// A fault that stands at the byte `place`.
    pub(crate) fn at(place: usize, fault: Fault) -> Self {
        Refusal {
            number: fault as u64,
            place: place as u64,
        }
    }

    /// A fault of no single record.
    pub(crate) fn of_whole(fault: Fault) -> Self {
        Self::at(0, fault)
    }
}

/// The faults, by the numbers of documents 01 and 02. 13 is withdrawn (document
/// 02, N5); 14 and 15 are the queue's.
#[derive(Clone, Copy)]
pub(crate) enum Fault {
    UnknownKind = 1,
    CutOff = 2,
    TooManyRecords = 3,
    NumberTooLarge = 4,
    NotEarlier = 5,
    /// A role is named where a concept is wanted.
    RoleForConcept = 6,
    NamedTwice = 7,
    /// The role of a restriction, or the first of an inclusion, does.
    HoldsOnEmptySet = 8,
    TooManyParts = 9,
    SetTooShort = 10,
    DominoTooLarge = 11,
    ListTooShort = 12,
    /// A concept is named where a role is wanted.
    ConceptForRole = 16,
    AxiomNamed = 17,
    UnknownWord = 18,
    /// A word or parenthesis stands where it cannot, or a text ends in a form.
    CannotStand = 19,
    /// An axiom has a role with not, and, or, or there is a role inclusion.
    NoText = 20,
    OutputTooShort = 21,
    /// A record of a plant has an unknown kind, or is cut off.
    NoPlantRecord = 22,
    TooManyIndividuals = 23,
    /// A bit of an individual that is no name or fresh name, or a connection with
    /// an individual or a role that there is not.
    NotInPlant = 24,
    NoIndividuals = 25,
    /// A sheet that cannot be met is to be drawn.
    NoSurvivors = 26,
    TooManySurvivors = 27,
}
