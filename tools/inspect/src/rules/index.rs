//! Row 16: the path index.

use super::Rule;
use super::place::quoted;
use super::records::container;
use super::sections::Section::*;
use super::sections::{Image, NONE, PARENT, PLACE, Word};

pub fn rules(image: &Image<'_>) -> Rule {
    let mut last = None;
    for entry in 0..image.count(Index) {
        let at = Word::new(Index, entry, 0, "path");
        let text = image.text(image.word(Index, entry, 0), image.word(Index, entry, 1));
        let text = text.map_err(|why| image.broken(10, "text", at, why))?;
        let target = image.word(Index, entry, 2);
        container(image, target, Word::new(Index, entry, 2, "node"))?;
        order(image, at, text, last)?;
        name_or_place(image, at, text, target as usize)?;
        fit(image, at, text, target as usize)?;
        last = Some(text);
    }
    Ok(())
}

fn order(image: &Image<'_>, at: Word<'_>, text: &str, last: Option<&str>) -> Rule {
    match last {
        Some(last) if last >= text => Err(image.broken(
            16,
            "order of the index",
            at,
            format!("{} is not above {}, which stands before it", quoted(text), quoted(last)),
        )),
        _ => Ok(()),
    }
}

/// Nothing fits where the target or a container on the way to it has neither name nor place.
fn name_or_place(image: &Image<'_>, at: Word<'_>, text: &str, target: usize) -> Rule {
    let Some(node) = way(image, target).into_iter().find(|node| piece(image, *node).is_none()) else {
        return Ok(());
    };
    let which = if node == target { "the target" } else { "on the way to the target" };
    let because = format!("{}; node {node}, {which}, has neither a name nor a place", quoted(text));
    Err(image.broken(16, "name or place", at, because))
}

/// The text is the target's path. Every container on the way has a piece of it.
fn fit(image: &Image<'_>, at: Word<'_>, text: &str, target: usize) -> Rule {
    let pieces: Vec<String> = way(image, target).iter().rev().filter_map(|node| piece(image, *node)).collect();
    let path = pieces.join(".");
    if text == path {
        return Ok(());
    }
    let because = format!("{}; the path of node {target} is {}", quoted(text), quoted(&path));
    Err(image.broken(16, "fit of a path", at, because))
}

/// The containers from a node up to the root, which is left out. The tree passed, so parents lead there.
fn way(image: &Image<'_>, target: usize) -> Vec<usize> {
    let (mut node, mut way) = (target, vec![]);
    while node != 0 {
        way.push(node);
        node = image.word(Nodes, node, PARENT) as usize;
    }
    way
}

/// A container's piece of a path: its non-empty name, else its place.
fn piece(image: &Image<'_>, container: usize) -> Option<String> {
    match image.text(image.field(container, 0), image.field(container, 1)) {
        Ok(name) if !name.is_empty() => Some(name.to_owned()),
        _ => Some(image.word(Nodes, container, PLACE)).filter(|place| *place != NONE).map(|place| place.to_string()),
    }
}
