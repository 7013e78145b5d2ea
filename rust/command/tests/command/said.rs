//! What is to be said of a plant that is drawn without a fault.

use crate::drawn::Drawn;
use crate::words::{self, count};
use comparison::records::body_length;
use reference::flat::{flatten, FlatKb, Normal, Part};
use reference::written::Written;
use std::collections::BTreeSet;

/// What is to be said, and of what sort it is.
pub struct Said {
    pub status: i32,
    pub text: String,
    pub found: Found,
}

#[derive(Clone, Copy, Debug, PartialEq, Eq)]
pub enum Found {
    Holds,
    /// An item breaks rules as written.
    Item,
    /// An item breaks none as written.
    Fresh,
    Pair,
}

/// A sheet without faults and a plant drawn for it.
struct Both<'a> {
    sheet: &'a [u8],
    kb: FlatKb,
    written: Written,
    drawn: &'a Drawn,
}

const WORKED_OUT: &str = "(worked out by this command, not by the proved library):\n";

/// What is to be said of a plant and a sheet, both without faults.
pub fn said(sheet: &[u8], drawn: &Drawn) -> Said {
    let both = Both {
        sheet,
        kb: flatten(sheet).expect("a sheet without faults"),
        written: Written::read(sheet).expect("a sheet without faults"),
        drawn,
    };
    let (found, rest) = if let Some(item) = both.first_item() {
        both.of_item(item)
    } else if let Some((from, to)) = both.first_pair() {
        (Found::Pair, both.of_pair(from, to))
    } else {
        (Found::Holds, both.holds())
    };
    let (verdict, status) = match found {
        Found::Holds => ("keeps the sheet", 0),
        Found::Item | Found::Fresh => ("breaks a rule", 1),
        Found::Pair => ("breaks a link rule", 1),
    };
    let (items, connections, pairings) = both.counts();
    let counts = format!("items {items}, connections {connections}; pairings {pairings}");
    Said {
        status,
        text: format!("{verdict}\n{counts}\n{rest}"),
        found,
    }
}

impl Both<'_> {
    fn items(&self) -> impl Iterator<Item = usize> + Clone {
        0..self.drawn.plant.len()
    }

    /// The ordered pairs of items, by the first and then by the second.
    fn pairs(&self) -> impl Iterator<Item = (usize, usize)> {
        let items = self.items();
        items
            .clone()
            .flat_map(move |x| items.clone().map(move |y| (x, y)))
    }

    fn first_item(&self) -> Option<usize> {
        self.items().find(|&item| {
            let mut axioms = self.kb.axioms.iter();
            axioms.any(|axiom| self.drawn.breaks_flattened(&self.kb, axiom, item))
        })
    }

    fn first_pair(&self) -> Option<(usize, usize)> {
        self.pairs().find(|&(x, y)| {
            let mut inclusions = self.kb.inclusions.iter();
            inclusions.any(|inclusion| self.drawn.breaks_inclusion(inclusion, x, y))
        })
    }

    /// How many items, different connections and different pairings.
    fn counts(&self) -> (u64, u64, u64) {
        let label = |item| self.drawn.label(&self.kb, item);
        let labels: Vec<_> = self.items().map(label).collect();
        let pairing = |(x, y): (usize, usize)| (labels[x], self.drawn.roles(x, y), labels[y]);
        let pairings: BTreeSet<_> = self.pairs().map(pairing).collect();
        let connections: BTreeSet<_> = self.drawn.plant.connections.iter().collect();
        let counts = [labels.len(), connections.len(), pairings.len()];
        counts.map(|count| count as u64).into()
    }

    fn holds(&self) -> String {
        let (items, connections, pairings) = self.counts();
        format!(
            "This plant of {} and {} keeps every rule of the sheet; it has {}.\n",
            count(items, "item"),
            count(connections, "connection"),
            count(pairings, "different pairing")
        )
    }

    fn of_item(&self, item: usize) -> (Found, String) {
        let axioms = self.written.axioms.iter().zip(&self.written.starts);
        let broken = axioms.filter(|(axiom, _)| self.drawn.breaks(axiom, item));
        let broken = broken.map(|(axiom, start)| self.rule(*start, &words::axiom(axiom)));
        let rules: String = broken.collect();
        let traits = self.traits(item);
        let heading = format!("Item {item} is the first whose marks break a rule.\n{traits}");
        if rules.is_empty() {
            let says = format!(
                "Item {item} breaks no rule as written; the fresh marks drawn do not agree with \
                 their fillers {WORKED_OUT}"
            );
            return (Found::Fresh, heading + &says + &self.fresh(item));
        }
        let says = format!("The rules as written that item {item} breaks {WORKED_OUT}");
        (Found::Item, heading + &says + &rules)
    }

    fn of_pair(&self, from: usize, to: usize) -> String {
        let inclusions = self.written.inclusions.iter();
        let inclusions = inclusions.zip(&self.written.inclusion_starts);
        let broken = inclusions.filter(|(i, _)| self.drawn.breaks_inclusion(i, from, to));
        let broken = broken.map(|(i, start)| self.rule(*start, &words::inclusion(i)));
        let rules: String = broken.collect();
        let other = if from == to {
            String::new()
        } else {
            self.traits(to)
        };
        format!(
            "Each item keeps the rules; the pair from item {from} to item {to} is the first that \
             breaks a link rule.\n{}  links from item {from} to item {to}: {}\n{other}\
             The link rules as written that it breaks {WORKED_OUT}{rules}",
            self.traits(from),
            self.links(from, to),
        )
    }

    /// The line of the rule whose record starts at a byte.
    fn rule(&self, start: usize, text: &str) -> String {
        let (mut record, mut at) = (0, 0);
        while at < start {
            at += 1 + body_length(self.sheet[at]).expect("a known kind");
            record += 1;
        }
        format!("  record {record}: {text}\n")
    }

    fn traits(&self, item: usize) -> String {
        let traits = (0..self.kb.names).filter(|name| self.drawn.has(item, *name));
        let traits = list(traits.map(|name| format!("t{name}")));
        format!("  traits of item {item}: {traits}\n")
    }

    fn links(&self, from: usize, to: usize) -> String {
        let roles = self.drawn.roles(from, to);
        let links = (0..2 * self.kb.roles).filter(|bit| roles >> bit & 1 == 1);
        list(links.map(|bit| format!("k{}{}", bit / 2, ["", " reversed"][bit % 2])))
    }

    /// The lines about fresh names.
    fn fresh(&self, item: usize) -> String {
        let texts = words::parts(&self.kb);
        let mut lines = String::new();
        for (mark, part) in self.kb.parts.iter().enumerate() {
            let Part::Fresh(filler) = part else { continue };
            let holds = |item: usize| self.drawn.normal(filler, item);
            let is_drawn = |item: usize| self.drawn.has(item, mark);
            let heading = format!("  mark {mark}, {}:", texts[mark]);
            if is_drawn(item) && !holds(item) {
                lines += &format!("{heading} drawn of item {item}, of which it does not hold\n");
            }
            let wanting = self.claimed_from(mark, item).into_iter();
            let wanting: Vec<_> = wanting.filter(|&y| holds(y) && !is_drawn(y)).collect();
            if let [_, more @ ..] = &wanting[..] {
                let plural = if more.is_empty() { "" } else { "s" };
                let items = list(wanting.iter().map(ToString::to_string));
                lines +=
                    &format!("{heading} not drawn of item{plural} {items}, of which it holds\n");
            }
        }
        lines
    }

    /// The items that the claim of a fresh name joins an item to, if the claim holds
    /// there and is not in the label.
    fn claimed_from(&self, mark: usize, item: usize) -> Vec<usize> {
        let Part::Fresh(filler) = &self.kb.parts[mark] else {
            return Vec::new();
        };
        let (role, claim) = match &self.kb.parts[mark - 1] {
            Part::Exists(r) => (&r.role, Normal::Exists(r.role.clone(), filler.clone())),
            Part::Forall(r) => (&r.role, Normal::Forall(r.role.clone(), filler.clone())),
            _ => panic!("a fresh name stands behind its claim"),
        };
        let in_label = self.drawn.label(&self.kb, item) >> (mark - 1) & 1 == 1;
        match self.drawn.normal(&claim, item) && !in_label {
            true => self.drawn.joined(role, item),
            false => Vec::new(),
        }
    }
}

fn list(texts: impl Iterator<Item = String>) -> String {
    let texts: Vec<_> = texts.collect();
    match &texts[..] {
        [] => "none".into(),
        texts => texts.join(", "),
    }
}
