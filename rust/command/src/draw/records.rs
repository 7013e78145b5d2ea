//! A drawn plant as hex text.

use super::Drawn;
use crate::hex::pairs;
use crate::members::list;
use crate::plant::{records, Kind, Record};

impl Drawn<'_> {
    /// A record a line, each with what it says in a comment.
    pub(super) fn records(&self) -> String {
        let mut lines = format!("# {}\n", self.sentence());
        for record in records(&self.bytes) {
            let (hex, number) = (pairs(record.bytes.iter().copied()), record.number);
            lines += &format!("{hex:20}# {number}  {}\n", self.says(&record));
        }
        lines
    }

    fn says(&self, record: &Record<'_>) -> String {
        match record.kind {
            Some(Kind::Connection) => {
                let ([from, to], link) = (record.ends(), self.sheet.names.role(record.role()));
                format!("item {from} to item {to}: {link}")
            }
            // the items come first
            _ => {
                let item = self.item(record.number);
                let fresh = match &item.fresh[..] {
                    [] => String::new(),
                    fresh => format!("; fresh marks {}", list(fresh)),
                };
                format!("item {}: {}{fresh}", item.number, list(&item.traits))
            }
        }
    }
}
