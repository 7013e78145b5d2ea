//! The plant that is to be drawn for a sheet, as the reference draws it, and how it is
//! to be printed where there are no names.

use crate::json::Json;
use crate::words::{self, count};
use comparison::plants::{Connection, Drawing};
use reference::domino::has;
use reference::flat::{flatten, FlatKb, Part};
use reference::plant::drawn_plant;
use std::collections::BTreeMap;
use std::ops::Range;

/// A sheet's survivors, of which each layer has an item for each.
pub struct Layers {
    kb: FlatKb,
    /// What the parts stand for.
    texts: Vec<String>,
    /// Their numbers.
    survivors: Vec<u64>,
    plant: Drawing,
}

/// The colours of what joins two layers.
const COLORS: [(usize, usize, &str); 3] = [(0, 1, "#0067a5"), (1, 2, "#b24700"), (0, 2, "#00703c")];

impl Layers {
    /// Those of a sheet without faults; or how many survivors there are, if no plant
    /// is drawn.
    pub fn of(sheet: &[u8]) -> Result<Self, usize> {
        let kb = flatten(sheet).expect("a sheet without faults");
        let shape = kb.shape();
        let mut set = vec![0; shape.words()];
        let drawn = drawn_plant(sheet, &mut set);
        let survivors = (0..shape.dominoes()).filter(|&number| has(&set, number));
        let survivors: Vec<_> = survivors.collect();
        let plant = drawn.map_err(|_| survivors.len())?;
        Ok(Layers {
            texts: words::parts(&kb),
            plant: read(&plant, 3 * survivors.len()),
            survivors,
            kb,
        })
    }

    /// How many survivors there are.
    pub fn len(&self) -> usize {
        self.survivors.len()
    }

    /// How many connections there are.
    pub fn connections(&self) -> usize {
        self.plant.connections.len()
    }

    /// Whether the sheet has a fresh name.
    pub fn has_fresh(&self) -> bool {
        self.kb
            .parts
            .iter()
            .any(|part| matches!(part, Part::Fresh(_)))
    }

    fn items(&self) -> Range<usize> {
        0..3 * self.len()
    }

    /// What is said first.
    pub fn sentence(&self) -> String {
        let m = self.len() as u64;
        format!(
            "This plant of {} and {} keeps every rule of the sheet; it has three layers of {}, one \
             for each survivor.\n",
            count(3 * m, "item"),
            count(self.connections() as u64, "connection"),
            count(m, "item")
        )
    }

    /// The texts of an item's traits or fresh marks.
    fn words(&self, item: usize, of: fn(&Part) -> bool) -> Vec<(usize, &str)> {
        let bits = self.plant.individuals[item];
        let parts = self.kb.parts.iter().enumerate();
        let parts = parts.filter(|(number, part)| of(part) && bits >> number & 1 == 1);
        parts.map(|(n, _)| (n, &*self.texts[n])).collect()
    }

    fn traits(&self, item: usize) -> Vec<(usize, &str)> {
        self.words(item, |part| *part == Part::Name)
    }

    fn fresh(&self, item: usize) -> Vec<(usize, &str)> {
        self.words(item, |part| matches!(part, Part::Fresh(_)))
    }

    /// What is printed for people.
    pub fn text(&self) -> String {
        let lists = self.items().map(|item| list(&self.traits(item)));
        let widest = lists.map(|list| list.len()).chain([6]).max();
        let width = if self.has_fresh() { widest } else { None }.unwrap_or(0);
        let line = |front: &str, traits: &str, fresh: &str| match self.has_fresh() {
            true => format!("{front}  {traits:width$}  {fresh}\n"),
            false => format!("{front}  {traits}\n"),
        };
        let mut text = self.sentence() + "\n";
        text += &line("item  layer  survivor   pairing", "traits", "fresh marks");
        for item in self.items() {
            let (layer, survivor) = (item / self.len(), item % self.len());
            let pairing = self.survivors[survivor];
            let front = format!("{item:4}  {layer:5}  {survivor:8}  {pairing:8}");
            text += &line(&front, &list(&self.traits(item)), &list(&self.fresh(item)));
        }
        text + "\n" + &self.connections_text()
    }

    fn connections_text(&self) -> String {
        let mut groups = BTreeMap::<_, Vec<_>>::new();
        for connection in &self.plant.connections {
            let group = groups.entry((connection.from, connection.role));
            group.or_default().push(connection.to.to_string());
        }
        let head = match groups.len() {
            0 => "no connections\n",
            _ => "from  link  to\n",
        };
        let groups = groups.into_iter();
        let lines = groups.map(|((from, k), to)| format!("{from:4}  k{k}    {}\n", to.join(", ")));
        head.to_string() + &lines.collect::<String>()
    }

    /// The hex text.
    pub fn records(&self) -> String {
        let mut text = format!("# {}", self.sentence());
        let items = self.items().map(|item| {
            let fresh = self.fresh(item);
            let fresh = match &fresh[..] {
                [] => String::new(),
                fresh => format!("; fresh marks {}", list(fresh)),
            };
            format!("item {item}: {}{fresh}", list(&self.traits(item)))
        });
        let connections = self.plant.connections.iter();
        let connections = connections
            .map(|Connection { from, to, role }| format!("item {from} to item {to}: k{role}"));
        let says = items.chain(connections);
        for (number, (record, says)) in self.plant.records().iter().zip(says).enumerate() {
            let hex: String = record.iter().map(|byte| format!("{byte:02X} ")).collect();
            text += &format!("{hex:20}# {number}  {says}\n");
        }
        text
    }

    /// The DOT text.
    pub fn dot(&self) -> String {
        let mut text = String::from(
            "digraph plant {\n\
             \x20 ranksep=1;\n\
             \x20 node [shape=box, style=rounded, fontname=\"Helvetica\"];\n\
             \x20 edge [fontname=\"Helvetica\", fontsize=11];\n",
        );
        let m = self.len();
        for layer in 0..3 {
            text += "  {\n    rank=same;\n";
            text += &format!("    layer{layer} [label=\"layer {layer}\", shape=plaintext];\n");
            for item in layer * m..(layer + 1) * m {
                let traits = self.traits(item).into_iter();
                let traits: String = traits.map(|(_, text)| format!("\\n{text}")).collect();
                text += &format!("    {item} [label=\"{item}{traits}\"];\n");
            }
            text += "  }\n";
        }
        text += "  layer0 -> layer1 -> layer2 [style=invis];\n";
        let joined = self.joined();
        for (upper, lower, color) in COLORS {
            text += &format!("  edge [color=\"{color}\", fontcolor=\"{color}\"];\n");
            for x in upper * m..(upper + 1) * m {
                for y in lower * m..(lower + 1) * m {
                    text += &edges(&joined, x, y);
                }
            }
        }
        text + "}\n"
    }

    /// What joins an item to another.
    fn joined(&self) -> BTreeMap<(usize, usize), String> {
        let mut joined = BTreeMap::<_, String>::new();
        for Connection { from, to, role } in &self.plant.connections {
            let label = joined.entry((*from, *to)).or_default();
            *label += &match &label[..] {
                "" => format!("k{role}"),
                _ => format!(", k{role}"),
            };
        }
        joined
    }

    /// The object about a file.
    pub fn object(&self, file: &str) -> Json {
        let object = |fields: Vec<(&str, Json)>| {
            let fields = fields.into_iter();
            Json::Object(fields.map(|(key, value)| (key.into(), value)).collect())
        };
        let number = |number: usize| Json::from(number as u64);
        let marks = |key, marks: Vec<(usize, &str)>| {
            let marks = marks.into_iter();
            let marks =
                marks.map(|(n, text)| object(vec![(key, number(n)), ("text", text.into())]));
            Json::List(marks.collect())
        };
        let items = self.items().map(|item| {
            let survivor = item % self.len();
            object(vec![
                ("item", number(item)),
                ("layer", number(item / self.len())),
                ("survivor", number(survivor)),
                ("pairing", Json::from(self.survivors[survivor])),
                ("traits", marks("trait", self.traits(item))),
                ("fresh", marks("mark", self.fresh(item))),
            ])
        });
        let connections = self.plant.connections.iter().map(|connection| {
            object(vec![
                ("from", number(connection.from)),
                ("to", number(connection.to)),
                ("link", number(connection.role)),
                ("text", Json::Text(format!("k{}", connection.role))),
            ])
        });
        object(vec![
            ("file", file.into()),
            ("answer", "drawn".into()),
            ("survivors", number(self.len())),
            ("items", number(3 * self.len())),
            ("connections", number(self.connections())),
            ("item_list", Json::List(items.collect())),
            ("connection_list", Json::List(connections.collect())),
        ])
    }
}

/// Reads a plant of so many items, which come before the connections.
fn read(plant: &[u8], items: usize) -> Drawing {
    let (items, connections) = plant.split_at(3 * items);
    let number = |low, high| usize::from(u16::from_le_bytes([low, high]));
    let connection = |record: &[u8]| Connection {
        from: number(record[1], record[2]),
        to: number(record[3], record[4]),
        role: record[5].into(),
    };
    let items = items.chunks_exact(3);
    Drawing {
        individuals: items
            .map(|record| u16::from_le_bytes([record[1], record[2]]))
            .collect(),
        connections: connections.chunks_exact(6).map(connection).collect(),
    }
}

/// The edges between an item and one of a lower layer.
fn edges(joined: &BTreeMap<(usize, usize), String>, x: usize, y: usize) -> String {
    let edge = |label: &str, direction| format!("  {x} -> {y} [label=\"{label}\"{direction}];\n");
    match (joined.get(&(x, y)), joined.get(&(y, x))) {
        (Some(down), Some(up)) if down == up => edge(down, ", dir=both"),
        (down, up) => {
            let down = down.map(|label| edge(label, ""));
            let up = up.map(|label| edge(label, ", dir=back"));
            [down, up].into_iter().flatten().collect()
        }
    }
}

/// Texts with commas between them.
fn list(texts: &[(usize, &str)]) -> String {
    let texts: Vec<_> = texts.iter().map(|(_, text)| *text).collect();
    match &texts[..] {
        [] => "none".into(),
        texts => texts.join(", "),
    }
}
