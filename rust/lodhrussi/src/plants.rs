use crate::{ffi, Call, Refusal};

/// What the check of a plant found.
#[derive(Clone, Copy, Debug, PartialEq, Eq, Hash)]
pub enum PlantCheck {
    /// Every item keeps the flattened axioms and every ordered pair of items the
    /// role inclusions, so the plant is a model of the sheet.
    Holds,
    /// The first item that breaks a flattened axiom.
    Item(usize),
    /// No item breaks a flattened axiom, and this is the first ordered pair of
    /// items, by the first of the two and then by the second, that breaks a role
    /// inclusion.
    Pair(usize, usize),
}

impl PlantCheck {
    /// The outcome that the library answers as a number, 0 to 2; `first` counts
    /// for an item and for a pair, `second` for a pair alone.
    fn of(breach: u64, first: u64, second: u64) -> Self {
        match breach {
            0 => PlantCheck::Holds,
            1 => PlantCheck::Item(item(first)),
            2 => PlantCheck::Pair(item(first), item(second)),
            _ => panic!("the library answers a breach's number, and not {breach}"),
        }
    }
}

/// The number of an item.
fn item(number: u64) -> usize {
    usize::try_from(number).expect("the library answers an item's number")
}

/// Checks a drawn plant, a finite interpretation on file, against a sheet, and
/// writes its dominoes.
///
/// The bytes of a plant are records of two kinds:
///
/// - `0x40`, an item (an individual), with the concept names and fresh names that
///   it has: two bytes, low first, of which bit n stands for part n;
/// - `0x41`, a connection, with the item that it goes from and the item that it
///   goes to, each as two bytes, low first, and then the number of a role.
///
/// Items are numbered from 0 as they come, at most 1,024. A connection is of
/// earlier items, and may repeat. The restrictions in the label of an item are
/// worked out from the connections: an existential one is in it if the role joins
/// the item to one that has the filler, a universal one if the role joins it to no
/// item that lacks the filler. Fillers are taken as drawn, fresh names too.
///
/// The set gets the dominoes of all ordered pairs of items, an item with itself
/// included, whatever it held before, and whatever breaks. If nothing does,
/// [`judge`](crate::judge) keeps all of these. Words of `set` past
/// [`words_needed`](crate::words_needed) are kept; a refusal keeps all.
///
/// A call takes at most about 160 KB of stack, whatever the plant, and runs on a
/// stack of 256 KB.
///
/// # Errors
///
/// The refusals of [`read`](crate::read), then 10 if `set` has fewer than
/// [`words_needed`](crate::words_needed). Then those of the first faulty record of
/// the plant: 22 for one of no known kind or cut off, 23 for a 1,025th item, 24 for
/// a bit that is no name or fresh name of the sheet, or an item or role that does
/// not exist. At the end 25 if there are no items.
///
/// ```
/// use lodhrussi::PlantCheck;
///
/// // Everything is joined by role 0 to something with name 0.
/// let sheet = [1, 0x10, 0, 3, 0, 7, 1, 2, 0x20, 0, 3];
/// let mut set = [0; 1];
///
/// // An item with name 0, joined by role 0 to itself.
/// let plant = [0x40, 1, 0, 0x41, 0, 0, 0, 0, 0];
/// assert_eq!(lodhrussi::check_plant(&sheet, &plant, &mut set)?, PlantCheck::Holds);
/// assert_eq!(set, [1 << 63]);
///
/// // Without the connection.
/// assert_eq!(lodhrussi::check_plant(&sheet, &plant[..3], &mut set)?, PlantCheck::Item(0));
/// assert_eq!(set, [1 << 17]);
///
/// let refusal = lodhrussi::check_plant(&sheet, &plant[3..], &mut set).unwrap_err();
/// assert_eq!((refusal.number, refusal.place), (24, 0));
/// # Ok::<(), lodhrussi::Refusal>(())
/// ```
pub fn check_plant(sheet: &[u8], plant: &[u8], set: &mut [u64]) -> Result<PlantCheck, Refusal> {
    let (refused, [place, breach, first, second]) = call(sheet, plant, set, [0; 4]);
    Refusal::check(Call::CheckPlant, refused, place)?;
    Ok(PlantCheck::of(breach, first, second))
}

/// Calls the library: the number that it answers, and what it leaves of place,
/// breach, first and second, which are these before.
fn call(sheet: &[u8], plant: &[u8], set: &mut [u64], before: [u64; 4]) -> (u64, [u64; 4]) {
    let [mut place, mut breach, mut first, mut second] = before;
    // SAFETY: pointers and lengths are those of `sheet` and `plant`, which are
    // only read, and of `set`; the others are to numbers of ours. None of what is
    // written overlaps anything.
    let number = unsafe {
        ffi::lodhrussi_check_plant(
            sheet.as_ptr(),
            sheet.len(),
            plant.as_ptr(),
            plant.len(),
            set.as_mut_ptr(),
            set.len(),
            &raw mut place,
            &raw mut breach,
            &raw mut first,
            &raw mut second,
        )
    };
    (number, [place, breach, first, second])
}

#[cfg(test)]
mod tests {
    use super::*;

    #[test]
    fn each_breach_has_its_number() {
        assert_eq!(PlantCheck::of(0, 8, 9), PlantCheck::Holds);
        assert_eq!(PlantCheck::of(1, 8, 9), PlantCheck::Item(8));
        assert_eq!(PlantCheck::of(2, 8, 9), PlantCheck::Pair(8, 9));
    }

    #[test]
    fn a_number_is_written_only_where_it_says_something() {
        // everything is some of role 0 is everything; role 0 in role 1
        let some = [0x01, 0x10, 0, 0x07, 1, 0, 0x20, 0, 2];
        let within = [0x10, 0, 0x10, 1, 0x21, 0, 1];
        let joined = [0x40, 0, 0, 0x40, 0, 0, 0x41, 0, 0, 1, 0, 0];
        let written = |sheet: &[u8], plant: &[u8]| call(sheet, plant, &mut [0], [6, 7, 8, 9]);
        assert_eq!(written(&[], &joined[..6]), (0, [6, 0, 8, 9]));
        assert_eq!(written(&some, &joined), (0, [6, 1, 1, 9]));
        assert_eq!(written(&within, &joined), (0, [6, 2, 0, 1]));
        let many = [0x40, 0, 0].repeat(1025);
        for (sheet, plant, number, place) in [
            (&some[..8], &joined[..], 2, 6),
            (&[0x03, 0x0B], &joined, 10, 0),
            (&within, &joined[..8], 22, 0),
            (&within, &many, 23, 0),
            (&within, &joined[3..], 24, 0),
            (&within, &[], 25, 0),
        ] {
            let expected = (number, [place, 7, 8, 9]);
            assert_eq!(written(sheet, plant), expected);
        }
    }

    #[test]
    #[should_panic(expected = "the library answers a breach's number, and not 3")]
    fn no_other_number_is_a_breach() {
        let _ = PlantCheck::of(3, 0, 0);
    }
}
