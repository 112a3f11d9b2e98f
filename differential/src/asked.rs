//! Names and walks to ask an image for: such as are there, and such as are not.

use crate::parts::NONE;
use crate::random::Random;
use crate::technician::Technician;
use crate::texts;
use reference::{Kind, Step};

/// A path to follow.
#[derive(Clone, Debug)]
pub struct Walk {
    pub origin: u32,
    pub relative: bool,
    pub steps: Vec<Step>,
}

/// Named children by name: all that there are, up to forty, and some that are not.
pub fn names(reader: &dyn Technician, node: u32, random: &mut Random) -> Vec<String> {
    let count = reader.named_child_count(node).unwrap_or(0);
    let mut names = vec![texts::name(random), String::new()];
    let entries = (0..count.min(40)).map_while(|index| reader.named_child_at(node, index));
    for (index, entry) in entries.enumerate() {
        let name = String::from_utf8_lossy(reader.text(entry.name)).into_owned();
        if index == 0 || random.once_in(4) {
            names.extend([format!("{name}a"), name.chars().skip(1).collect()]);
        }
        names.push(name);
    }
    names
}

impl Walk {
    /// A walk in an image of so many nodes that mostly follows what is there.
    pub fn random(reader: &dyn Technician, count: usize, random: &mut Random) -> Self {
        let origin = if random.once_in(12) { NONE } else { random.below(count + 1) as u32 };
        let relative = random.once_in(2);
        let mut at = if relative { Some(origin) } else { Some(0) };
        let mut steps = vec![];
        let view = at.and_then(|at| reader.node_view(at)).filter(|_| relative);
        if let Some(view) = view.filter(|view| !matches!(view.kind, Kind::Container { .. })) {
            steps.push(random_step(random));
            at = view.parent;
        }
        for _ in 0..random.below(5) {
            let step = match at {
                Some(at) => step_from(reader, at, random),
                None => random_step(random),
            };
            at = at.and_then(|at| reader.resolve_path(at, true, std::slice::from_ref(&step)));
            steps.push(step);
        }
        Walk { origin, relative, steps }
    }
}

fn step_from(reader: &dyn Technician, node: u32, random: &mut Random) -> Step {
    let (children, named) = (reader.child_count(node), reader.named_child_count(node));
    match random.below(4) {
        0 => Step::Parent,
        1 if named.unwrap_or(0) > 0 => {
            let index = random.below(named.unwrap_or(0) as usize) as u32;
            match reader.named_child_at(node, index) {
                Some(entry) => named_step(&String::from_utf8_lossy(reader.text(entry.name))),
                None => random_step(random),
            }
        }
        1 | 2 if children.unwrap_or(0) > 0 => Step::Index(random.below(children.unwrap_or(0) as usize) as u32),
        _ => random_step(random),
    }
}

fn random_step(random: &mut Random) -> Step {
    match random.below(3) {
        0 => Step::Parent,
        1 => Step::Index(*random.pick(&[0, 1, 2, 0x8000_0000, NONE])),
        _ => named_step(&texts::name(random)),
    }
}

/// A name spelled like the published parent mark is outside the comparison.
fn named_step(name: &str) -> Step {
    if name == "^" { Step::Parent } else { Step::Name(name.to_owned()) }
}
