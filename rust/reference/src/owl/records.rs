//! Axioms as records: operands before what uses them, left to right, and a new
//! record for each use.

use crate::written::{Axiom, Concept, Role};

/// The sheet of axioms that take at most 255 records, without Boolean roles.
pub(super) fn sheet(axioms: &[Axiom]) -> Vec<u8> {
    let mut records = Records::default();
    for axiom in axioms {
        let (left, right) = (records.concept(&axiom.left), records.concept(&axiom.right));
        records.push(&[0x20, left, right]);
    }
    records.bytes
}

#[derive(Default)]
struct Records {
    bytes: Vec<u8>,
    count: usize,
}

impl Records {
    /// Adds a record and answers its number.
    fn push(&mut self, record: &[u8]) -> u8 {
        self.bytes.extend(record);
        self.count += 1;
        u8::try_from(self.count - 1).expect("at most 255 records")
    }

    fn concept(&mut self, concept: &Concept) -> u8 {
        match concept {
            Concept::Top => self.push(&[0x01]),
            Concept::Bottom => self.push(&[0x02]),
            Concept::Name(number) => self.push(&[0x03, *number as u8]),
            Concept::Not(c) => {
                let c = self.concept(c);
                self.push(&[0x04, c])
            }
            Concept::And(c, d) => {
                let (c, d) = (self.concept(c), self.concept(d));
                self.push(&[0x05, c, d])
            }
            Concept::Or(c, d) => {
                let (c, d) = (self.concept(c), self.concept(d));
                self.push(&[0x06, c, d])
            }
            Concept::Exists(u, c) => {
                let (u, c) = (self.role(u), self.concept(c));
                self.push(&[0x07, u, c])
            }
            Concept::Forall(u, c) => {
                let (u, c) = (self.role(u), self.concept(c));
                self.push(&[0x08, u, c])
            }
        }
    }

    fn role(&mut self, role: &Role) -> u8 {
        match role {
            Role::Name(number) => self.push(&[0x10, *number as u8]),
            Role::Inverse(number) => self.push(&[0x11, *number as u8]),
            _ => unreachable!("a text has no Boolean roles"),
        }
    }
}
