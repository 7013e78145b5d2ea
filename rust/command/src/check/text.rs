//! A plant's check for people.

use super::{Checked, Misdrawn, Rule};
use crate::count::count;
use crate::members::list;
use lodhrussi::PlantCheck;

/// Who says which rules as written are broken.
const WORKED_OUT: &str = "worked out by this command, not by the proved library";

impl Checked<'_> {
    pub(super) fn text(&self) -> String {
        let (items, connections) = (self.plant.len() as u64, self.plant.connections());
        let (verdict, rest) = match self.found {
            PlantCheck::Holds => ("keeps the sheet", self.holds(items, connections)),
            PlantCheck::Item(item) => ("breaks a rule", self.item(item)),
            PlantCheck::Pair(from, to) => ("breaks a link rule", self.pair(from, to)),
        };
        let pairings = self.pairings;
        format!("{verdict}\nitems {items}, connections {connections}; pairings {pairings}\n{rest}")
    }

    fn holds(&self, items: u64, connections: u64) -> String {
        format!(
            "This plant of {} and {} keeps every rule of the sheet; it has {}.\n",
            count(items, "item"),
            count(connections, "connection"),
            count(self.pairings, "different pairing")
        )
    }

    fn item(&self, item: usize) -> String {
        let rules = self.rules(item);
        let broken = match &rules[..] {
            [] => self.drawn_wrongly(item),
            rules => told(
                &format!("The rules as written that item {item} breaks"),
                rules,
            ),
        };
        format!(
            "Item {item} is the first whose marks break a rule.\n{}{broken}",
            self.traits_line(item)
        )
    }

    /// What is said of an item that breaks no axiom as written.
    fn drawn_wrongly(&self, item: usize) -> String {
        let fresh = self.fresh(item);
        let lines = fresh.iter().map(|fresh| self.fresh_line(fresh));
        format!(
            "Item {item} breaks no rule as written; the fresh marks drawn do not agree with their \
             fillers ({WORKED_OUT}):\n{}",
            lines.collect::<String>()
        )
    }

    fn fresh_line(&self, fresh: &Misdrawn) -> String {
        let (mark, text) = (fresh.mark, self.mark(fresh.mark));
        let items: Vec<_> = fresh.items.iter().map(ToString::to_string).collect();
        let thing = if items.len() == 1 { "item" } else { "items" };
        let items = format!("{thing} {}", items.join(", "));
        match fresh.drawn {
            true => format!("  mark {mark}, {text}: drawn of {items}, of which it does not hold\n"),
            false => format!("  mark {mark}, {text}: not drawn of {items}, of which it holds\n"),
        }
    }

    fn pair(&self, from: usize, to: usize) -> String {
        let links = list(&self.links(from, to));
        let other = match from == to {
            true => String::new(),
            false => self.traits_line(to),
        };
        format!(
            "Each item keeps the rules; the pair from item {from} to item {to} is the first that \
             breaks a link rule.\n{}  links from item {from} to item {to}: {links}\n{other}{}",
            self.traits_line(from),
            told(
                "The link rules as written that it breaks",
                &self.link_rules(from, to)
            )
        )
    }

    fn traits_line(&self, item: usize) -> String {
        format!("  traits of item {item}: {}\n", list(&self.traits(item)))
    }
}

/// Rules as written below a heading.
fn told(heading: &str, rules: &[Rule]) -> String {
    let line = |rule: &Rule| format!("  record {}: {}\n", rule.record, rule.text);
    let lines: String = rules.iter().map(line).collect();
    format!("{heading} ({WORKED_OUT}):\n{lines}")
}
