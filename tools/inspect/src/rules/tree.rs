//! Rows 14 and 15: a walk from the root with a stack, newest entry first.

use super::Rule;
use super::place::quoted;
use super::records::container;
use super::sections::Section::*;
use super::sections::{Image, PARENT, PLACE, Word, shown};

pub fn rules(image: &Image<'_>) -> Rule {
    let mut seen = vec![false; image.count(Nodes)];
    let mut pending = vec![0];
    while let Some(node) = pending.pop() {
        if seen[node] {
            continue;
        }
        seen[node] = true;
        if image.is_container(node) {
            ordered_children(image, node, &mut pending)?;
            named_children(image, node, &mut pending)?;
        }
    }
    reached(image, &seen)
}

fn ordered_children(image: &Image<'_>, node: usize, pending: &mut Vec<usize>) -> Rule {
    let (start, count) = (image.field(node, 3) as usize, image.field(node, 4) as usize);
    for place in 0..count {
        pending.push(ordered_child(image, node, start + place, place)?);
    }
    Ok(())
}

/// The child is a node, and names its parent and its place; gives its number.
fn ordered_child(image: &Image<'_>, node: usize, entry: usize, place: usize) -> Result<usize, super::Broken> {
    let word = image.word(Children, entry, 0);
    let Some(child) = image.inside(word) else {
        let because =
            format!("child {place} of node {node} is {}; there are {} nodes", shown(word), image.count(Nodes));
        return Err(image.broken(14, "child", Word::new(Children, entry, 0, "node"), because));
    };
    for (k, field, due) in [(PARENT, "parent", node), (PLACE, "place", place)] {
        let word = image.word(Nodes, child, k);
        if word as usize != due {
            let because = format!("{}; it is child {place} of node {node} (children, entry {entry})", shown(word));
            return Err(image.broken(14, "child's parent and place", Word::new(Nodes, child, k, field), because));
        }
    }
    Ok(child)
}

fn named_children(image: &Image<'_>, node: usize, pending: &mut Vec<usize>) -> Rule {
    let (start, count) = (image.field(node, 5) as usize, image.field(node, 6) as usize);
    let mut last = None;
    for entry in start..start + count {
        let name = named_text(image, entry, last)?;
        pending.push(named_target(image, node, entry)?);
        last = Some(name);
    }
    Ok(())
}

/// A text, behind that of the entry before.
fn named_text<'a>(image: &Image<'a>, entry: usize, last: Option<&str>) -> Result<&'a str, super::Broken> {
    let at = Word::new(Named, entry, 0, "name");
    let text = image.text(image.word(Named, entry, 0), image.word(Named, entry, 1));
    let name = text.map_err(|why| image.broken(14, "named entry's text", at, why))?;
    match last {
        Some(last) if last >= name => Err(image.broken(
            14,
            "order of named entries",
            at,
            format!("{} is not above {}, which stands before it", quoted(name), quoted(last)),
        )),
        _ => Ok(name),
    }
}

/// A container that names its parent.
fn named_target(image: &Image<'_>, node: usize, entry: usize) -> Result<usize, super::Broken> {
    let word = image.word(Named, entry, 2);
    container(image, word, Word::new(Named, entry, 2, "node"))?;
    let child = word as usize;
    let parent = image.word(Nodes, child, PARENT);
    if parent as usize != node {
        let because = format!("{}; it is a named child of node {node} (named children, entry {entry})", shown(parent));
        return Err(image.broken(14, "named child's parent", Word::new(Nodes, child, PARENT, "parent"), because));
    }
    Ok(child)
}

/// Row 15.
fn reached(image: &Image<'_>, seen: &[bool]) -> Rule {
    let Some(node) = seen.iter().position(|seen| !seen) else {
        return Ok(());
    };
    let all = seen.iter().filter(|seen| !**seen).count();
    let because = format!("no entry leads to it from node 0 (nodes that are not reached: {all})");
    Err(image.broken(15, "reached", Word::new(Nodes, node, 0, "record"), because))
}
