//! `graph`: containers, and what leads from one to another, as Graphviz text.

use crate::call::Call;
use crate::choice;
use crate::each::{Manner, Shown, each};
use crate::end::{Fault, Status};
use crate::explain;
use crate::paths::{MOST, Paths, ROOT};
use inspect::library::{By, Image, Kind, Reader};
use std::collections::HashMap;
use std::io::{self, Write};

pub const MORE: &str = "\
A box for each container with a name, which bears its path, and for the root; what a nameless container holds is shown as
its nearest named ancestor's. With --all each container has a box. An arrow goes from the container that holds a node to
the one that the node names, or that holds the node named:
    bold      a choice; beside it its text, where that is plain, else its path if it has one
    solid     a divert; beside it what it pushes, if anything
    dashed    a divert-target value
    dotted    a read count
Equal arrows are one, with their number. A divert by variable or to an external function names no node and has none. Of a
refused image there is no graph, and what `explain` says goes to standard error.

    story-image graph FILE | dot -Tsvg >guide.svg
";

const LEGEND: &str = "\
// boxes: containers, by their paths
// arrows: bold a choice (with its text), solid a divert, dashed a divert-target value, dotted a read count
";

pub fn run(call: &Call) -> Result<Status, Fault> {
    each(call, &Manner { show, named: false, refusals: false })
}

pub fn show(shown: &Shown<'_>, out: &mut dyn Write) -> io::Result<()> {
    match &shown.loaded {
        Ok(image) => graph(image, shown.name, shown.call.has("--all"), out),
        Err(_) => {
            write!(out, "{}: ", shown.name)?;
            explain::show(shown, out)
        }
    }
}

/// The graph of an image under a name.
pub fn graph(image: &Image<'_>, name: &str, all: bool, out: &mut dyn Write) -> io::Result<()> {
    let boxes = Boxes::new(image, all);
    write!(out, "{LEGEND}digraph {} {{\n  node [shape=box];\n", quoted(name))?;
    for node in boxes.nodes() {
        writeln!(out, "  n{node} [label={}];", boxes.label(node))?;
    }
    for (arrow, times) in arrows(image, &boxes) {
        writeln!(out, "  n{} -> n{} [{}];", arrow.from, arrow.to, attributes(&arrow, times))?;
    }
    writeln!(out, "}}")
}

struct Boxes<'a> {
    paths: Paths<'a>,
    /// Which nodes have a box.
    boxed: Vec<bool>,
    /// The box of each node: that of itself, or of the nearest one above.
    homes: Vec<u32>,
}

impl<'a> Boxes<'a> {
    fn new(image: &Image<'a>, all: bool) -> Self {
        let paths = Paths::new(image);
        let mut boxed: Vec<_> = paths.nodes.iter().map(|node| node.name.is_some() || (all && node.container)).collect();
        boxed[0] = true;
        for container in 0..image.node_count() {
            for (_, child) in image.named_children(container) {
                boxed[child as usize] = true;
            }
        }
        let homes = homes(&paths, &boxed);
        Boxes { paths, boxed, homes }
    }

    fn nodes(&self) -> impl Iterator<Item = u32> {
        (0..).zip(&self.boxed).filter(|(_, boxed)| **boxed).map(|(node, _)| node)
    }

    fn label(&self, node: u32) -> String {
        quoted(&self.paths.path(node).unwrap_or(ROOT.to_owned()))
    }
}

/// The box of each node: up to the next that is known, and back.
fn homes(paths: &Paths<'_>, boxed: &[bool]) -> Vec<u32> {
    let mut homes: Vec<_> = (0..).zip(boxed).map(|(node, boxed)| boxed.then_some(node)).collect();
    for node in 0..homes.len() {
        let (mut way, mut at) = (vec![], node);
        while homes[at].is_none() {
            way.push(at);
            at = paths.nodes[at].parent.unwrap_or(0) as usize;
        }
        for below in way {
            homes[below] = homes[at];
        }
    }
    homes.into_iter().map(|home| home.unwrap_or(0)).collect()
}

#[derive(Clone, PartialEq, Eq, Hash)]
struct Arrow {
    from: u32,
    to: u32,
    by: By,
    label: String,
}

/// The arrows in the order of the nodes that make them, each with the number of its equals.
fn arrows(image: &Image<'_>, boxes: &Boxes<'_>) -> Vec<(Arrow, usize)> {
    let (mut arrows, mut places) = (vec![], HashMap::new());
    for node in 0..image.node_count() {
        let Some((by, target)) = image.target(node) else { continue };
        let (from, to) = (boxes.homes[node as usize], boxes.homes[target as usize]);
        let arrow = Arrow { from, to, by, label: label(image, node, by) };
        let place = *places.entry(arrow.clone()).or_insert(arrows.len());
        match arrows.get_mut(place) {
            Some((_, times)) => *times += 1,
            None => arrows.push((arrow, 1)),
        }
    }
    arrows
}

/// What stands beside an arrow.
fn label(image: &Image<'_>, node: u32, by: By) -> String {
    let words = match by {
        By::Choice => choice::text(image, node).or_else(|| image.choice_path(node).map(str::to_owned)),
        By::Divert => match image.node(node).map(|view| view.kind) {
            Some(Kind::Divert(divert)) => divert.pushes.map(str::to_owned),
            _ => None,
        },
        By::DivertTarget | By::ReadCount => None,
    };
    shortened(words.unwrap_or_default())
}

fn shortened(text: String) -> String {
    match text.char_indices().nth(MOST) {
        Some((end, _)) => format!("{}\u{2026}", &text[..end]),
        None => text,
    }
}

fn attributes(arrow: &Arrow, times: usize) -> String {
    let style = match arrow.by {
        By::Choice => "bold",
        By::Divert => "solid",
        By::DivertTarget => "dashed",
        By::ReadCount => "dotted",
    };
    let label = match (arrow.label.as_str(), times) {
        (label, 1) => label.to_owned(),
        ("", times) => format!("\u{d7}{times}"),
        (label, times) => format!("{label} \u{d7}{times}"),
    };
    if label.is_empty() { format!("style={style}") } else { format!("style={style}, label={}", quoted(&label)) }
}

/// A text in quotes as Graphviz reads it. What a picture cannot hold is the sign for that.
fn quoted(text: &str) -> String {
    let mut out = String::from("\"");
    for character in text.chars() {
        match character {
            '"' => out.push_str("\\\""),
            '\\' => out.push_str("\\\\"),
            '\n' => out.push_str("\\n"),
            '&' => out.push_str("&amp;"),
            '\0'..='\x1f' | '\x7f'..='\u{9f}' | '\u{fffe}' | '\u{ffff}' => out.push('\u{fffd}'),
            _ => out.push(character),
        }
    }
    out.push('"');
    out
}

#[cfg(test)]
mod tests {
    use super::quoted;

    #[test]
    fn texts_are_escaped() {
        assert_eq!(quoted("a\"b\\c\n&lt;\t\0\u{e9}"), "\"a\\\"b\\\\c\\n&amp;lt;\u{fffd}\u{fffd}\u{e9}\"");
    }
}
