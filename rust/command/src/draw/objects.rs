//! A drawn plant for programs.

use super::{Drawn, Item};
use crate::json::Object;
use crate::members::member_object;
use crate::names::Names;

impl Drawn<'_> {
    pub(super) fn object(&self) -> Object {
        let names = &self.sheet.names;
        let connections = self.connections();
        let connections = connections.map(|(ends, role)| connection(ends, role, names));
        self.sheet
            .object("drawn")
            .number("survivors", self.layer() as u64)
            .number("items", self.plant.len() as u64)
            .number("connections", self.plant.connections())
            .objects("item_list", self.items().map(|item| item.object()))
            .objects("connection_list", connections)
    }
}

impl Item {
    fn object(&self) -> Object {
        let traits = self.traits.iter();
        let fresh = self.fresh.iter();
        Object::default()
            .number("item", self.number as u64)
            .number("layer", self.layer as u64)
            .number("survivor", self.survivor as u64)
            .number("pairing", self.pairing)
            .objects(
                "traits",
                traits.map(|member| member_object("trait", member)),
            )
            .objects("fresh", fresh.map(|member| member_object("mark", member)))
    }
}

fn connection([from, to]: [usize; 2], role: u8, names: &Names) -> Object {
    Object::default()
        .number("from", from as u64)
        .number("to", to as u64)
        .number("link", role.into())
        .text("text", &names.role(role))
}
