//! Bytes that are written into a lent output.

use crate::fault::{Fault, Refusal};

/// Puts bytes at the front of the output and answers how many. Bytes past these
/// are kept; a refusal leaves the output as it was.
///
/// # Errors
///
/// 21 if there is no room.
pub fn put(bytes: &[u8], out: &mut [u8]) -> Result<usize, Refusal> {
    let room = out.get_mut(..bytes.len());
    let room = room.ok_or(Refusal::of_whole(Fault::OutputTooShort))?;
    room.copy_from_slice(bytes);
    Ok(bytes.len())
}
