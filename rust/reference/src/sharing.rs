//! The two ways to count the occurrences of restrictions.

/// Which occurrences have a part of their own.
#[derive(Clone, Copy, PartialEq, Eq)]
pub(crate) enum Sharing {
    /// One part for one claim (document 02, N4). Occurrences of the same kind
    /// after normal form, with roles written alike and the same filler in
    /// normal form, share a part, if that filler is a name, everything or
    /// nothing; the part is that of the occurrence first met.
    ByClaim,
    /// A part for each occurrence (document 01 without N4).
    Apart,
}
