//! Reading and judging with a part for each occurrence of a restriction, as
//! document 01 has it without document 02's N4, to compare verdicts with.

use crate::calls::judge_flat;
use crate::fault::Refusal;
use crate::flat::flatten_apart;
use crate::sharing::Sharing;
use crate::{Counts, Judgement};

/// As [`read`](crate::read).
///
/// # Errors
///
/// Refusals 1 to 8, 16 and 17 for the first faulty record, then 9 for the
/// larger count.
pub fn read(sheet: &[u8]) -> Result<Counts, Refusal> {
    crate::read_by(sheet, Sharing::Apart)
}

/// As [`list_marks`](crate::list_marks).
///
/// # Errors
///
/// The refusals of [`read`], then 12.
pub fn list_marks(sheet: &[u8], list: &mut [u8]) -> Result<usize, Refusal> {
    crate::list_marks_by(sheet, list, Sharing::Apart)
}

/// As [`judge`](crate::judge).
///
/// # Errors
///
/// The refusals of [`read`], then 10.
pub fn judge(sheet: &[u8], set: &mut [u64]) -> Result<Judgement, Refusal> {
    judge_flat(&flatten_apart(sheet)?, set)
}
