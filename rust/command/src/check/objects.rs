//! A plant's check for programs.

use super::{Checked, Misdrawn, Rule};
use crate::json::Object;
use crate::members::{member_object, role_object, Member};
use lodhrussi::PlantCheck;

/// The key of what the proved library does not say.
const WORKED_OUT: &str = "worked_out_by_the_command";

impl Checked<'_> {
    pub(super) fn object(&self) -> Object {
        let answer = match self.found {
            PlantCheck::Holds => "keeps",
            PlantCheck::Item(_) | PlantCheck::Pair(..) => "breaks",
        };
        let object = self.sheet.object(answer).text("plant", self.file);
        let object = object
            .number("items", self.plant.len() as u64)
            .number("connections", self.plant.connections())
            .number("pairings", self.pairings);
        match self.found {
            PlantCheck::Holds => object,
            PlantCheck::Item(item) => self.with_item(object, item),
            PlantCheck::Pair(from, to) => self.with_pair(object, from, to),
        }
    }

    fn with_item(&self, object: Object, item: usize) -> Object {
        let rules = self.rules(item);
        let fresh = match &rules[..] {
            [] => self.fresh(item),
            _ => Vec::new(),
        };
        let fresh = fresh.iter().map(|fresh| self.fresh_object(fresh));
        let worked_out = Object::default().objects("rules", rules.iter().map(Rule::object));
        object
            .number("item", item as u64)
            .objects("traits", self.traits(item).iter().map(trait_object))
            .object(WORKED_OUT, &worked_out.objects("fresh", fresh))
    }

    fn with_pair(&self, object: Object, from: usize, to: usize) -> Object {
        let rules = self.link_rules(from, to);
        let worked_out = Object::default().objects("link_rules", rules.iter().map(Rule::object));
        object
            .number("from", from as u64)
            .number("to", to as u64)
            .objects("from_traits", self.traits(from).iter().map(trait_object))
            .objects("links", self.links(from, to).iter().map(role_object))
            .objects("to_traits", self.traits(to).iter().map(trait_object))
            .object(WORKED_OUT, &worked_out)
    }

    fn fresh_object(&self, fresh: &Misdrawn) -> Object {
        Object::default()
            .number("mark", fresh.mark as u64)
            .text("text", &self.mark(fresh.mark))
            .truth("drawn", fresh.drawn)
            .numbers("items", fresh.items.iter().map(|&item| item as u64))
    }
}

impl Rule {
    fn object(&self) -> Object {
        Object::default()
            .number("record", self.record as u64)
            .text("text", &self.text)
    }
}

fn trait_object(member: &Member) -> Object {
    member_object("trait", member)
}
