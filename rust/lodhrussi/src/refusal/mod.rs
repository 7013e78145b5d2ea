mod sentence;
mod shown;
mod text;

#[cfg(test)]
mod tests;

use crate::Call;
use sentence::said;
use std::error::Error;
use std::fmt;

/// Why a call refused.
///
/// Displayed as a sentence in document 01's words, which goes by the call and
/// the number; [`explain`](Refusal::explain) adds what the sheet shows.
///
/// ```
/// let sheet = [0x10, 0, 7, 0, 0];
/// let refusal = lodhrussi::read(&sheet).unwrap_err();
/// let sentence = "The reference at byte 4 names a link where a class is wanted.";
/// assert_eq!(refusal.to_string(), sentence);
/// ```
#[derive(Clone, Copy, Debug, PartialEq, Eq, Hash)]
pub struct Refusal {
    /// The call that refused.
    pub call: Call,
    /// 1 to 8, 16 and 17 for a fault of one record, 9 for too many parts, 10
    /// for a set that is too short, 11 for a domino number that is too large,
    /// 12 for a list that is too short, 18 and 19 for a fault of a text, 3 also
    /// for its 256th record, 20 for an axiom or a role inclusion that has no
    /// text, 21 for an output that is too short, 22 to 24 for a fault of a plant's
    /// record, 25 for a plant without items, 26 for an empty canonical domino set,
    /// 27 for one with too many members to draw. No call answers 13, which is
    /// withdrawn, nor 14 and 15, which are the queue program's.
    pub number: u64,
    /// For 5, 6, 7, 16 and 17 the byte of the faulty reference, for 1 to 4, 8
    /// and 20 the byte where the faulty record starts, for 18 and 19 the byte of
    /// the text, else 0. Refused by [`Call::Import`], 3 has 0 too.
    pub place: u64,
}

impl Refusal {
    /// The outcome of a call that answered `number` and `place`.
    pub(crate) fn check(call: Call, number: u64, place: u64) -> Result<(), Self> {
        match number {
            0 => Ok(()),
            _ => Err(Refusal {
                call,
                number,
                place,
            }),
        }
    }

    /// The sentence, then a second one with what the refused sheet shows: the
    /// byte at the place, the record and the reference that it belongs to, what
    /// was found there and what was wanted; or what a set, a list or an output
    /// needs, what an item and a connection of a plant may have, or how many
    /// survivors there are. For [`Call::Import`] what is refused is a text, which
    /// shows line, column and word; for [`Call::CheckPlant`] it is the sheet all the
    /// same, and 22, 23 and 25 have the sentence alone, as 26 has. The sentence alone
    /// also for another sheet or text, whose first fault is not this one.
    ///
    /// ```
    /// let sheet = [0x10, 0, 7, 0, 0];
    /// let refusal = lodhrussi::read(&sheet).unwrap_err();
    /// assert_eq!(
    ///     refusal.explain(&sheet),
    ///     "The reference at byte 4 names a link where a class is wanted. \
    ///      Byte 4 is 00, the second reference of record 1 (07, some, at byte 2): \
    ///      it names record 0 (10, link as named, at byte 0), and a class is wanted."
    /// );
    /// assert_eq!(refusal.explain(&[]), refusal.to_string());
    ///
    /// let text = b"SubClassOf(:t0 :k0)";
    /// let refusal = lodhrussi::imported(text).unwrap_err();
    /// assert_eq!(
    ///     refusal.explain(text),
    ///     "The text at byte 15 goes on with what cannot stand there, or ends inside a form. \
    ///      Line 1, column 16: found ':k0'; wanted a class (:t0 to :t11, owl:Thing, owl:Nothing \
    ///      or a form of classes)."
    /// );
    /// ```
    #[must_use]
    pub fn explain(&self, refused: &[u8]) -> String {
        let shown = match self.call {
            Call::Import => text::shown(self, refused),
            _ => shown::shown(self, refused),
        };
        match shown {
            Some(shown) => format!("{self} {shown}"),
            None => self.to_string(),
        }
    }
}

impl fmt::Display for Refusal {
    fn fmt(&self, f: &mut fmt::Formatter<'_>) -> fmt::Result {
        let Refusal {
            call,
            number,
            place,
        } = self;
        match said(*call, *number) {
            Some((subject, says)) => write!(f, "{} {says}.", subject.at(*place)),
            None => write!(
                f,
                "The call {call} refused with number {number} at {place}."
            ),
        }
    }
}

impl Error for Refusal {}
