use crate::{ffi, Call, Refusal};

/// The bytes that a sheet of 255 records takes at most.
pub(crate) const MOST_SHEET: usize = 3 * 255;

/// The bytes that a text takes at most. A record that names others stands in it
/// once at most, with 23 bytes of its own; a leaf that it names takes up to 20.
const MOST_TEXT: usize = 255 * (23 + 2 * 20);

/// Writes the sheet of a text and answers its length.
///
/// The text is OWL 2 functional-style syntax: axioms in a row, of `SubClassOf`,
/// `ObjectIntersectionOf` and `ObjectUnionOf` of two, `ObjectComplementOf`,
/// `ObjectSomeValuesFrom`, `ObjectAllValuesFrom`, `ObjectInverseOf` of a name,
/// `owl:Thing`, `owl:Nothing`, and the names `:t0` to `:t11` and `:k0` to `:k3`.
/// Words are parted by spaces or line feeds; parentheses need none. Operands are
/// written before what uses them, left to right, and each use has a record of
/// its own.
///
/// Bytes of `out` past the sheet are kept; a refusal keeps all. 765 bytes are
/// enough for any text. Calls nest at most 255 forms deep, and run on a stack of
/// 256 KB.
///
/// # Errors
///
/// The first of these in the text: 18 for a word that is not known, 19 for a
/// known word or parenthesis that cannot stand there or a text that ends inside
/// a form, 3 for a 256th record. Then 21 if `out` is too short. Whether the sheet
/// has too many parts (9) is left to reading it.
///
/// ```
/// let mut out = [9; 10];
/// assert_eq!(lodhrussi::import(b"SubClassOf(:t0 :t1)", &mut out)?, 7);
/// assert_eq!(out, [0x03, 0, 0x03, 1, 0x20, 0, 1, 9, 9, 9]);
///
/// let refusal = lodhrussi::import(b"SubClassOf(:t0 :t12)", &mut out).unwrap_err();
/// assert_eq!((refusal.number, refusal.place), (18, 15));
/// # Ok::<(), lodhrussi::Refusal>(())
/// ```
pub fn import(text: &[u8], out: &mut [u8]) -> Result<usize, Refusal> {
    let (mut place, mut written) = (0, 0);
    // SAFETY: pointers and lengths are those of `text`, which is only read, and
    // of `out`; the others are to numbers of ours. None overlap.
    let refused = unsafe {
        ffi::lodhrussi_import(
            text.as_ptr(),
            text.len(),
            out.as_mut_ptr(),
            out.len(),
            &raw mut place,
            &raw mut written,
        )
    };
    Refusal::check(Call::Import, refused, place)?;
    Ok(within(written))
}

/// The sheet of a text, as [`import`] writes it.
///
/// # Errors
///
/// The refusals of [`import`] but 21.
///
/// ```
/// let sheet = lodhrussi::imported(b"SubClassOf(:t0 ObjectComplementOf(:t1))")?;
/// assert_eq!(sheet, [0x03, 0, 0x03, 1, 0x04, 1, 0x20, 0, 2]);
/// # Ok::<(), lodhrussi::Refusal>(())
/// ```
pub fn imported(text: &[u8]) -> Result<Vec<u8>, Refusal> {
    let mut sheet = vec![0; MOST_SHEET];
    let length = import(text, &mut sheet)?;
    sheet.truncate(length);
    Ok(sheet)
}

/// Writes the axioms of a sheet as a text, one a line, and answers its length.
///
/// The text is of the kind that [`import`] takes, without other spaces than
/// between two operands. Imported again, unless that is refused, it gives a
/// sheet of the same axioms written alike, which has the same verdict.
///
/// Bytes of `out` past the text are kept; a refusal keeps all. Calls nest at most
/// 255 records deep, and run on a stack of 256 KB.
///
/// # Errors
///
/// The refusals of [`read`](crate::read), then 20 for the first axiom that
/// reaches a role with not, and, or, or the first role inclusion, whichever comes
/// first, then 21 if `out` is too short.
///
/// ```
/// let sheet = [0x03, 0, 0x03, 1, 0x20, 0, 1];
/// let mut out = [b'.'; 22];
/// assert_eq!(lodhrussi::export(&sheet, &mut out)?, 20);
/// assert_eq!(&out, b"SubClassOf(:t0 :t1)\n..");
/// # Ok::<(), lodhrussi::Refusal>(())
/// ```
pub fn export(sheet: &[u8], out: &mut [u8]) -> Result<usize, Refusal> {
    let (mut place, mut written) = (0, 0);
    // SAFETY: as in `import`.
    let refused = unsafe {
        ffi::lodhrussi_export(
            sheet.as_ptr(),
            sheet.len(),
            out.as_mut_ptr(),
            out.len(),
            &raw mut place,
            &raw mut written,
        )
    };
    Refusal::check(Call::Export, refused, place)?;
    Ok(within(written))
}

/// The axioms of a sheet as a text, as [`export`] writes it.
///
/// # Errors
///
/// The refusals of [`export`] but 21.
///
/// ```
/// let sheet = [0x03, 0, 0x03, 1, 0x04, 1, 0x20, 0, 2];
/// let text = lodhrussi::exported(&sheet)?;
/// assert_eq!(text, "SubClassOf(:t0 ObjectComplementOf(:t1))\n");
/// assert_eq!(lodhrussi::imported(text.as_bytes())?, sheet);
/// # Ok::<(), lodhrussi::Refusal>(())
/// ```
pub fn exported(sheet: &[u8]) -> Result<String, Refusal> {
    let mut text = vec![0; MOST_TEXT];
    let length = export(sheet, &mut text)?;
    text.truncate(length);
    Ok(String::from_utf8(text).expect("the library writes ASCII"))
}

/// A length within an output.
pub(crate) fn within(written: u64) -> usize {
    usize::try_from(written).expect("the library writes within the output")
}
