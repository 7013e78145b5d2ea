use crate::owl::within;
use crate::{ffi, words_needed, Call, Refusal};

/// The bytes that most plants fit into.
const USUAL: usize = 64 * 1024;

/// Judges a sheet and writes a plant, a finite interpretation on file that is a
/// model of it. Answers its length.
///
/// The set ends as [`judge`](crate::judge) leaves it, with the canonical domino
/// set. Of that set's m members, in rising order of their numbers, the plant has 3m
/// items in three layers, in the records that [`check_plant`](crate::check_plant)
/// takes. Item g × m + i, for a g of 0, 1 or 2, has the concept names and fresh names in
/// the right label of member i. If that is also the left label of member j, the
/// role set from this item to item ((g + 1) mod 3) × m + j is that of member j.
/// Items come first, then the connections, by the item that they go from, the item
/// that they go to and the role, each once.
///
/// [`check_plant`](crate::check_plant) finds that the plant holds, and its dominoes
/// are exactly the canonical domino set.
///
/// Bytes of `out` past the plant are kept, and words of `set` past
/// [`words_needed`]. With L roles a plant takes at most 9m + 36Lm² bytes, 16,747,533
/// for 341 members and 4 roles; most take far fewer.
///
/// A call takes at most about 80 KB of stack, whatever the sheet, and runs on a stack
/// of 256 KB.
///
/// # Errors
///
/// The refusals of [`judge`](crate::judge), then 26 if the canonical domino set is
/// empty, 27 if it has more than 341 members, which make more items than a plant may
/// have, then 21 if `out` is too short. These three leave the set as judged. A
/// refusal keeps all of `out`.
///
/// ```
/// // The inverse of role 0 is in role 0: joined both ways, or not at all.
/// let sheet = [0x10, 0, 0x11, 0, 0x21, 1, 0];
/// let (mut set, mut out) = ([0; 1], [9; 91]);
/// assert_eq!(lodhrussi::draw_plant(&sheet, &mut set, &mut out)?, 90);
/// assert_eq!(set, [1 << 0 | 1 << 3]);
/// // The last of six items, and the first of twelve connections, from item 0 to item 3.
/// assert_eq!(out[15..24], [0x40, 0, 0, 0x41, 0, 0, 3, 0, 0]);
/// assert_eq!(out[90], 9);
///
/// // Everything is nothing.
/// let refusal = lodhrussi::draw_plant(&[1, 2, 0x20, 0, 1], &mut set, &mut out).unwrap_err();
/// assert_eq!((refusal.number, refusal.place), (26, 0));
/// # Ok::<(), lodhrussi::Refusal>(())
/// ```
pub fn draw_plant(sheet: &[u8], set: &mut [u64], out: &mut [u8]) -> Result<usize, Refusal> {
    let (refused, [place, written]) = call(sheet, set, out, [0; 2]);
    Refusal::check(Call::DrawPlant, refused, place)?;
    Ok(within(written))
}

/// Calls the library: the number that it answers, and what it leaves of place and
/// written, which are these before.
fn call(sheet: &[u8], set: &mut [u64], out: &mut [u8], before: [u64; 2]) -> (u64, [u64; 2]) {
    let [mut place, mut written] = before;
    // SAFETY: pointers and lengths are those of `sheet`, which is only read, and
    // of `set` and `out`; the others are to numbers of ours. None overlap.
    let number = unsafe {
        ffi::lodhrussi_draw_plant(
            sheet.as_ptr(),
            sheet.len(),
            set.as_mut_ptr(),
            set.len(),
            out.as_mut_ptr(),
            out.len(),
            &raw mut place,
            &raw mut written,
        )
    };
    (number, [place, written])
}

/// The plant of a sheet, as [`draw_plant`] writes it.
///
/// A plant of more than 64 KB is judged and drawn twice, the second time with room
/// for any plant of so many members.
///
/// # Errors
///
/// The refusals of [`draw_plant`] but 21.
///
/// ```
/// use lodhrussi::PlantCheck;
///
/// // Everything is joined by role 0 to something with name 0.
/// let sheet = [1, 0x10, 0, 3, 0, 7, 1, 2, 0x20, 0, 3];
/// let (mut judged, mut drawn) = ([0; 1], [0; 1]);
/// let plant = lodhrussi::drawn_plant(&sheet, &mut judged)?;
/// assert_eq!(plant.len(), 2_448);
/// assert_eq!(lodhrussi::check_plant(&sheet, &plant, &mut drawn)?, PlantCheck::Holds);
/// assert_eq!(drawn, judged);
/// # Ok::<(), lodhrussi::Refusal>(())
/// ```
pub fn drawn_plant(sheet: &[u8], set: &mut [u64]) -> Result<Vec<u8>, Refusal> {
    let mut plant = vec![0; USUAL];
    let mut drawn = draw_plant(sheet, set, &mut plant);
    if drawn.is_err_and(|refusal| refusal.number == 21) {
        plant = vec![0; most_bytes(sheet, set)];
        drawn = draw_plant(sheet, set, &mut plant);
    }
    plant.truncate(drawn?);
    plant.shrink_to_fit();
    Ok(plant)
}

/// The bytes that the plant of a sheet takes at most, by what judging left.
fn most_bytes(sheet: &[u8], judged: &[u64]) -> usize {
    let counts = crate::read(sheet).expect("the library judged the sheet");
    let m = survivor_count(&judged[..words_needed(counts)]);
    9 * m + 36 * counts.links as usize * m * m
}

/// How many dominoes a judged set has.
fn survivor_count(judged: &[u64]) -> usize {
    judged.iter().map(|word| word.count_ones() as usize).sum()
}

#[cfg(test)]
mod tests {
    use super::*;
    use comparison::worked::{from_hex, S1, S6};

    #[test]
    fn a_number_is_written_only_where_it_says_something() {
        let (nothing, five_names) = ([0x01, 0x02, 0x20, 0, 1], [0x03, 4]);
        for (sheet, room, expected) in [
            (&[][..], 9, (0, [6, 9])),
            (&[0x03, 0], 40, (0, [6, 36])),
            (&[0x03], 40, (2, [0, 7])),
            (&[0x03, 0, 0x07, 0, 0], 40, (16, [3, 7])),
            (&[0x03, 0x0B], 40, (10, [0, 7])),
            (&nothing, 40, (26, [0, 7])),
            (&five_names, 40, (27, [0, 7])),
            (&[], 8, (21, [0, 7])),
        ] {
            let (mut set, mut out) = ([5; 16], vec![8; room]);
            let found = call(sheet, &mut set, &mut out, [6, 7]);
            assert_eq!(found, expected, "{sheet:02X?}");
        }
    }

    /// The set that judging leaves of a sheet, whose words are full before, with a
    /// word more than is needed.
    fn judged(sheet: &[u8]) -> Vec<u64> {
        let counts = crate::read(sheet).expect("a sheet without faults");
        let mut set = vec![u64::MAX; words_needed(counts) + 1];
        crate::judge(sheet, &mut set).expect("room for the set");
        set
    }

    #[test]
    fn a_refusal_keeps_the_output_and_leaves_what_judging_leaves() {
        for (sheet, number) in [
            ("01 02 20 00 01", 26),
            ("03 0B", 27),
            ("03 00 10 03", 27),
            (S1, 21),
            (S6, 21),
            ("10 03", 21),
        ] {
            let sheet = from_hex(sheet);
            let expected = judged(&sheet);
            let (mut set, mut out) = (vec![u64::MAX; expected.len()], [7; 2_447]);
            let refusal = draw_plant(&sheet, &mut set, &mut out).unwrap_err();
            assert_eq!((refusal.number, refusal.place), (number, 0));
            assert_eq!(out, [7; 2_447]);
            assert!(set == expected, "{sheet:02X?}");
        }
        // judging is refused
        let (mut set, mut out) = ([7; 4], [7; 9]);
        for (sheet, number) in [("03 0B", 10), ("03 0B 10 00", 9), ("04 00", 5)] {
            let refusal = draw_plant(&from_hex(sheet), &mut set, &mut out).unwrap_err();
            assert_eq!(refusal.number, number);
            assert_eq!((set, out), ([7; 4], [7; 9]));
        }
    }

    /// Sheets with the lengths of their plants, two of which take a second call, and
    /// the most that plants of so many members take.
    #[test]
    fn a_plant_of_any_length() {
        for (sheet, length, most) in [
            ("10 03", 4_720_896, 9_439_488),
            ("03 01 10 01", 592_128, 4_720_896),
            (S6, 25_569, 260_865),
            (S1, 2_448, 9_360),
            ("03 00", 36, 36),
            ("", 9, 9),
        ] {
            let sheet = from_hex(sheet);
            let expected = judged(&sheet);
            let mut set = vec![u64::MAX; expected.len()];
            let plant = drawn_plant(&sheet, &mut set).expect("a plant");
            assert!(set == expected, "{sheet:02X?}");
            assert_eq!(plant.len(), length);
            assert_eq!(most_bytes(&sheet, &set), most);

            let mut out = vec![7; length + 1];
            assert_eq!(draw_plant(&sheet, &mut set, &mut out), Ok(length));
            assert!(out[..length] == plant && out[length] == 7);
        }
    }
}
