use crate::{ffi, Call, Condition, Counts, Refusal};

/// What a strike found.
#[derive(Clone, Copy, Debug, PartialEq, Eq, Hash)]
pub enum Verdict {
    /// The domino is not in the set.
    Absent,
    /// It was in the set and defective, and is now out.
    Struck {
        /// The first condition that it failed.
        condition: Condition,
    },
    /// It is in the set and not defective.
    Kept,
}

impl Verdict {
    /// The verdict that the library answers as a number, 0 to 2; `condition`
    /// counts for Struck alone.
    fn of(number: u64, condition: u64) -> Self {
        match number {
            0 => Verdict::Absent,
            1 => Verdict::Struck {
                condition: Condition::of(condition),
            },
            2 => Verdict::Kept,
            _ => panic!("the library answers a verdict's number, and not {number}"),
        }
    }
}

/// What a strike found, beside the number asked for.
#[derive(Clone, Copy, Debug, PartialEq, Eq, Hash)]
pub struct Strike {
    pub number: u64,
    pub verdict: Verdict,
}

/// What judging found.
#[derive(Clone, Copy, Debug, Default, PartialEq, Eq, Hash)]
pub struct Judgement {
    /// The size of the initial domino set.
    pub opening: u64,
    /// The size of the canonical domino set.
    pub survivors: u64,
    /// Whether the canonical domino set has a member: precisely if some finite
    /// interpretation of at least one individual is a model.
    pub met: bool,
}

/// The words that a domino set of a sheet with these counts takes: one bit for
/// each of the 4<sup>marks + links</sup> dominoes, and at least one word.
///
/// A sheet that is read has at most 12 marks and links together. Of other
/// counts, those whose words no `usize` can tell give [`usize::MAX`], and no set
/// has so many.
///
/// ```
/// let counts = lodhrussi::Counts { traits: 3, fresh: 1, some: 2, only: 2, links: 1 };
/// assert_eq!(lodhrussi::words_needed(counts), 4096);
/// ```
#[must_use]
pub fn words_needed(counts: Counts) -> usize {
    // 64 dominoes to a word, and 64 is 4³
    let exponent = counts
        .marks()
        .saturating_add(counts.links)
        .saturating_sub(3);
    u32::try_from(exponent).map_or(usize::MAX, |exponent| 4_usize.saturating_pow(exponent))
}

/// Writes the initial domino set of a sheet and answers its size.
///
/// Words of `set` past [`words_needed`] are kept; a refusal keeps all.
///
/// # Errors
///
/// The refusals of [`read`](crate::read), then 10 if `set` has fewer than
/// [`words_needed`].
///
/// ```
/// let sheet = [1, 0x10, 0, 3, 0, 7, 1, 2, 0x20, 0, 3];
/// let mut set = [0; 1];
/// assert_eq!(lodhrussi::open(&sheet, &mut set)?, 32);
/// assert_eq!(set[0].count_ones(), 32);
/// # Ok::<(), lodhrussi::Refusal>(())
/// ```
pub fn open(sheet: &[u8], set: &mut [u64]) -> Result<u64, Refusal> {
    let (mut place, mut size) = (0, 0);
    // SAFETY: pointers and lengths are those of `sheet`, which is only read,
    // and of `set`; the others are to numbers of ours. None overlap.
    let refused = unsafe {
        ffi::lodhrussi_open(
            sheet.as_ptr(),
            sheet.len(),
            set.as_mut_ptr(),
            set.len(),
            &raw mut place,
            &raw mut size,
        )
    };
    Refusal::check(Call::Open, refused, place)?;
    Ok(size)
}

/// Takes the domino of that number out of the set if it is defective there, and
/// tells the first condition that failed.
///
/// A domino is defective if it fails a [`Condition`]: it is against the sheet
/// itself, or a witness that its left label needs or its own converse is not in
/// the set. The set may be any; no other domino is taken out.
///
/// # Errors
///
/// The refusals of [`read`](crate::read), then 10 if `set` has fewer than
/// [`words_needed`], then 11 if there is no domino of that number. A refusal
/// keeps the whole set.
///
/// ```
/// use lodhrussi::{Condition, Verdict};
///
/// let sheet = [1, 0x10, 0, 3, 0, 7, 1, 2, 0x20, 0, 3];
/// let mut set = [0; 1];
/// lodhrussi::open(&sheet, &mut set)?;
/// let struck = Verdict::Struck { condition: Condition::Sym };
/// assert_eq!(lodhrussi::strike(&sheet, &mut set, 32)?.verdict, struck);
/// assert_eq!(lodhrussi::strike(&sheet, &mut set, 32)?.verdict, Verdict::Absent);
/// assert_eq!(lodhrussi::strike(&sheet, &mut set, 34)?.verdict, Verdict::Kept);
/// assert_eq!(lodhrussi::strike(&sheet, &mut set, 64).unwrap_err().number, 11);
/// # Ok::<(), lodhrussi::Refusal>(())
/// ```
pub fn strike(sheet: &[u8], set: &mut [u64], number: u64) -> Result<Strike, Refusal> {
    let (mut place, mut verdict, mut condition) = (0, 0, 0);
    // SAFETY: as in `open`.
    let refused = unsafe {
        ffi::lodhrussi_strike(
            sheet.as_ptr(),
            sheet.len(),
            set.as_mut_ptr(),
            set.len(),
            number,
            &raw mut place,
            &raw mut verdict,
            &raw mut condition,
        )
    };
    Refusal::check(Call::Strike, refused, place)?;
    let verdict = Verdict::of(verdict, condition);
    Ok(Strike { number, verdict })
}

/// Leaves the largest subset of the set in which no domino is defective, and
/// answers its size.
///
/// # Errors
///
/// The refusals of [`open`].
///
/// ```
/// let sheet = [1, 0x10, 0, 3, 0, 7, 1, 2, 0x20, 0, 3];
/// let mut set = [u64::MAX; 1];
/// assert_eq!(lodhrussi::settle(&sheet, &mut set)?, 16);
/// # Ok::<(), lodhrussi::Refusal>(())
/// ```
pub fn settle(sheet: &[u8], set: &mut [u64]) -> Result<u64, Refusal> {
    let (mut place, mut survivors) = (0, 0);
    // SAFETY: as in `open`.
    let refused = unsafe {
        ffi::lodhrussi_settle(
            sheet.as_ptr(),
            sheet.len(),
            set.as_mut_ptr(),
            set.len(),
            &raw mut place,
            &raw mut survivors,
        )
    };
    Refusal::check(Call::Settle, refused, place)?;
    Ok(survivors)
}

/// Decides whether the knowledge base of a sheet has a finite model of at least
/// one individual, and leaves its canonical domino set.
///
/// # Errors
///
/// The refusals of [`open`].
///
/// ```
/// let sheet = [1, 0x10, 0, 3, 0, 7, 1, 2, 0x20, 0, 3];
/// let counts = lodhrussi::read(&sheet)?;
/// let mut set = vec![0; lodhrussi::words_needed(counts)];
/// let judgement = lodhrussi::judge(&sheet, &mut set)?;
/// assert_eq!((judgement.opening, judgement.survivors, judgement.met), (32, 16, true));
/// # Ok::<(), lodhrussi::Refusal>(())
/// ```
pub fn judge(sheet: &[u8], set: &mut [u64]) -> Result<Judgement, Refusal> {
    let (mut place, mut met) = (0, 0);
    let mut judgement = Judgement::default();
    // SAFETY: as in `open`.
    let refused = unsafe {
        ffi::lodhrussi_judge(
            sheet.as_ptr(),
            sheet.len(),
            set.as_mut_ptr(),
            set.len(),
            &raw mut place,
            &raw mut judgement.opening,
            &raw mut judgement.survivors,
            &raw mut met,
        )
    };
    Refusal::check(Call::Judge, refused, place)?;
    judgement.met = met != 0;
    Ok(judgement)
}

#[cfg(test)]
mod tests {
    use super::*;

    #[test]
    fn each_verdict_has_its_number() {
        assert_eq!(Verdict::of(0, 0), Verdict::Absent);
        for condition in Condition::ALL {
            let struck = Verdict::Struck { condition };
            assert_eq!(Verdict::of(1, condition.number()), struck);
        }
        assert_eq!(Verdict::of(2, 0), Verdict::Kept);
    }

    #[test]
    #[should_panic(expected = "the library answers a verdict's number, and not 3")]
    fn no_other_number_is_a_verdict() {
        let _ = Verdict::of(3, 0);
    }
}
