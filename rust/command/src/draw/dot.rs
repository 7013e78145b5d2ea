//! A drawn plant as DOT text.

use super::{Drawn, LAYERS};
use std::ops::Range;

/// How the picture is laid out.
const HEAD: &str = "\
digraph plant {
  ranksep=1;
  node [shape=box, style=rounded, fontname=\"Helvetica\"];
  edge [fontname=\"Helvetica\", fontsize=11];
";

/// The layers are placed one below the other.
const LAYERS_IN_ORDER: &str = "  layer0 -> layer1 -> layer2 [style=invis];\n";

/// Two layers, the upper one first, and the colour of what joins them.
const BETWEEN: [([usize; 2], &str); 3] = [
    ([0, 1], "#0067a5"),
    ([1, 2], "#b24700"),
    ([0, 2], "#00703c"),
];

impl Drawn<'_> {
    /// Items with their names, each layer a rank, and an edge for what joins two
    /// items, from the upper to the lower one, with its arrow where that goes.
    pub(super) fn dot(&self) -> String {
        let mut text = String::from(HEAD);
        for layer in 0..LAYERS {
            text += &self.rank(layer);
        }
        text += LAYERS_IN_ORDER;
        for (layers, color) in BETWEEN {
            text += &format!("  edge [color=\"{color}\", fontcolor=\"{color}\"];\n");
            text += &self.edges(layers);
        }
        text + "}\n"
    }

    /// The items of a layer.
    fn in_layer(&self, layer: usize) -> Range<usize> {
        layer * self.layer()..(layer + 1) * self.layer()
    }

    fn rank(&self, layer: usize) -> String {
        let nodes: String = self.in_layer(layer).map(|item| self.node(item)).collect();
        format!(
            "  {{\n    rank=same;\n    layer{layer} [label=\"layer {layer}\", shape=plaintext];\n\
             {nodes}  }}\n"
        )
    }

    fn node(&self, item: usize) -> String {
        let mut label = item.to_string();
        for (_, name) in self.item(item).traits {
            label += &format!("\\n{}", escaped(&name));
        }
        format!("    {item} [label=\"{label}\"];\n")
    }

    /// What joins the items of two layers.
    fn edges(&self, [upper, lower]: [usize; 2]) -> String {
        let mut edges = String::new();
        for x in self.in_layer(upper) {
            for y in self.in_layer(lower) {
                edges += &self.edges_between(x, y);
            }
        }
        edges
    }

    fn edges_between(&self, x: usize, y: usize) -> String {
        let roles = self.plant.roles(x, y);
        let (down, up) = (self.label(roles), self.label(roles >> 1));
        let edge = |label: &str, direction: &str| {
            format!("  {x} -> {y} [label=\"{label}\"{direction}];\n")
        };
        match (&down[..], &up[..]) {
            ("", "") => String::new(),
            (down, "") => edge(down, ""),
            ("", up) => edge(up, ", dir=back"),
            (down, up) if down == up => edge(down, ", dir=both"),
            (down, up) => edge(down, "") + &edge(up, ", dir=back"),
        }
    }

    /// The roles, not inverse, of a role set.
    fn label(&self, roles: u8) -> String {
        let roles = (0..4).filter(|role| roles >> (2 * role) & 1 == 1);
        let names = roles.map(|role| escaped(&self.sheet.names.role(role)));
        names.collect::<Vec<_>>().join(", ")
    }
}

/// A text within a label, where a quote ends it, and a backslash and an ampersand
/// begin what stands for something else.
fn escaped(text: &str) -> String {
    let text = text.replace('\\', "\\\\").replace('"', "\\\"");
    text.replace('&', "&amp;")
}
