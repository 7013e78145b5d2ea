//! A drawn plant for people.

use super::{Drawn, Item};
use crate::count::count;
use crate::members::list;
use crate::source::name;
use std::ffi::OsStr;

/// A line of a table.
type Row = [String; 3];

impl Drawn<'_> {
    /// What is drawn, the items and the connections.
    pub(super) fn text(&self) -> String {
        let (items, connections) = (self.items_text(), self.connections_text());
        format!("{}\n\n{items}\n{connections}", self.sentence())
    }

    /// What is drawn, and in which file its picture is.
    pub(super) fn saved(&self, file: &OsStr) -> String {
        format!("{}\nThe picture is in {}.\n", self.sentence(), name(file))
    }

    /// What is drawn.
    pub(super) fn sentence(&self) -> String {
        format!(
            "This plant of {} and {} keeps every rule of the sheet; it has three layers of {}, one \
             for each survivor.",
            count(self.plant.len() as u64, "item"),
            count(self.plant.connections(), "connection"),
            count(self.layer() as u64, "item")
        )
    }

    /// The items, with their fresh names where the sheet has some.
    fn items_text(&self) -> String {
        let head = ["item  layer  survivor   pairing", "traits", "fresh marks"];
        let mut rows = vec![head.map(String::from)];
        rows.extend(self.items().map(|item| item.row()));
        if self.counts.fresh == 0 {
            for [.., fresh] in &mut rows {
                fresh.clear();
            }
        }
        table(&rows)
    }

    /// The connections, those of one role from one item together.
    fn connections_text(&self) -> String {
        if self.plant.connections() == 0 {
            return "no connections\n".into();
        }
        let mut rows = vec![["from", "link", "to"].map(String::from)];
        for from in 0..self.plant.len() {
            rows.extend((0..4).filter_map(|link| self.connected(from, link)));
        }
        table(&rows)
    }

    /// The connections of a role from an item, if there are some.
    fn connected(&self, from: usize, link: u8) -> Option<Row> {
        let joins = |to: &usize| self.plant.roles(from, *to) >> (2 * link) & 1 == 1;
        let to = (0..self.plant.len()).filter(joins);
        let to: Vec<_> = to.map(|to| to.to_string()).collect();
        let link = self.sheet.names.role(link);
        (!to.is_empty()).then(|| [format!("{from:4}"), link, to.join(", ")])
    }
}

impl Item {
    fn row(&self) -> Row {
        let Item {
            number,
            layer,
            survivor,
            pairing,
            ..
        } = self;
        let numbers = format!("{number:4}  {layer:5}  {survivor:8}  {pairing:8}");
        [numbers, list(&self.traits), list(&self.fresh)]
    }
}

/// Rows one below the other, the second column as wide as its widest text.
fn table(rows: &[Row]) -> String {
    let width = rows.iter().map(|[_, text, _]| text.chars().count()).max();
    let width = width.unwrap_or_default();
    let line = |[first, second, third]: &Row| {
        let line = format!("{first}  {second:width$}  {third}");
        format!("{}\n", line.trim_end())
    };
    rows.iter().map(line).collect()
}
