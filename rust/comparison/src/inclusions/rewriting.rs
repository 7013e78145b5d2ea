//! Sheets without their role inclusions, and with axioms in their place.

use super::{records, KIND};
use crate::made_up::{Sheet, MAX_RECORDS};
use crate::records::wants;

/// A sheet without faults with records that no axiom reaches in place of its
/// role inclusions: an and of the same roles.
#[must_use]
pub fn without(sheet: &[u8]) -> Vec<u8> {
    let mut bytes = Vec::new();
    for record in records(sheet) {
        bytes.extend(record);
        if record[0] == KIND {
            let start = bytes.len() - record.len();
            bytes[start] = 0x13;
        }
    }
    bytes
}

/// A sheet with axioms in place of its role inclusions.
pub struct SpeltOut {
    pub sheet: Vec<u8>,
    /// The numbers of the universal restrictions that the axioms have.
    pub restrictions: Vec<u8>,
}

/// A sheet without faults with, in place of each inclusion of one role in
/// another, the axiom that everything has only nothing by the first and not the
/// second, which says the same (002, Lemma 4); none if it takes too many records.
#[must_use]
pub fn spelt_out(sheet: &[u8]) -> Option<SpeltOut> {
    let (mut out, mut restrictions) = (Sheet::default(), Vec::new());
    // the new number of each record
    let mut numbers = Vec::new();
    for record in records(sheet) {
        if out.starts.len() + 6 > MAX_RECORDS {
            return None;
        }
        let mut record = record.to_vec();
        let references = wants(record[0]).len();
        for reference in &mut record[1..=references] {
            *reference = numbers[usize::from(*reference)];
        }
        let number = match record[..] {
            [KIND, first, second] => {
                let restriction = only_nothing(&mut out, first, second);
                restrictions.push(restriction);
                let everything = out.push(&[0x01]);
                out.push(&[0x20, everything, restriction])
            }
            _ => out.push(&record),
        };
        numbers.push(number);
    }
    Some(SpeltOut {
        sheet: out.bytes,
        restrictions,
    })
}

/// Only nothing by the first role and not the second.
fn only_nothing(sheet: &mut Sheet, first: u8, second: u8) -> u8 {
    let not = sheet.push(&[0x12, second]);
    let role = sheet.push(&[0x13, first, not]);
    let nothing = sheet.push(&[0x02]);
    sheet.push(&[0x08, role, nothing])
}
