//! Drafts: sound ones in any numbering, and ones that break a rule.

use crate::damage::{self, tree_fault};
use crate::parts::{NONE, Parts};
use crate::random::Random;
use crate::small;
use crate::stories::{Shape, Story};
use reference::Draft;

/// What is known of a draft by how it was made.
#[derive(Clone, Copy, Debug, PartialEq)]
pub enum Known {
    /// Its tables and its tree are sound; paths may clash.
    Sound,
    /// It gets this number.
    Number(u32),
    /// It is refused.
    Refused,
    Nothing,
}

pub struct Case {
    pub name: &'static str,
    pub ink: u32,
    pub draft: Draft,
    pub known: Known,
    /// An image of the same sections, where its index has nothing to do with what is broken.
    pub image: Option<Vec<u8>>,
}

const GLUE: [u32; 10] = [0, 0, 5, NONE, NONE, NONE, NONE, NONE, NONE, NONE];

fn sound(plain: bool, random: &mut Random) -> Parts {
    let shape = Shape { plain, ..Shape::random(random) };
    Story::random(shape, random).parts(random)
}

pub fn random(random: &mut Random) -> Case {
    let plain = sound(true, random);
    match random.below(16) {
        0..3 => case("sound, plain names", plain, Known::Sound),
        3..6 => case("sound, any names", sound(false, random), Known::Sound),
        6 => unreached(plain, random),
        7 => tree(plain, random),
        8 => order(plain, random),
        9 | 10 => path(plain, random),
        11 => Case { ink: *random.pick(&[0, 17, 22, NONE]), ..case("ink version", plain, Known::Number(3)) },
        12 => broken(plain, random),
        13 => edited(plain, random),
        _ => damaged(plain, random),
    }
}

/// A small tree, whatever it is worth.
pub fn tree_member(number: u64) -> Case {
    let parts = small::tree(number);
    Case { image: Some(with_counted_index(&parts)), ..case("small tree", parts, Known::Nothing) }
}

fn case(name: &'static str, parts: Parts, known: Known) -> Case {
    Case { name, ink: parts.ink, draft: parts.draft(), known, image: None }
}

/// A node, or two that name each other, that no entry leads to.
fn unreached(mut parts: Parts, random: &mut Random) -> Case {
    let (nodes, children, named) = (parts.nodes.len() as u32, parts.children.len() as u32, parts.named.len() as u32);
    let container = |parent, start, count| [parent, 0, 1, NONE, NONE, 0, start, count, named, 0];
    match random.below(3) {
        0 => parts.nodes.push(GLUE),
        1 => parts.nodes.push(container(0, children, 0)),
        _ => {
            parts.nodes.push(container(nodes + 1, children, 1));
            parts.nodes.push(container(nodes, children + 1, 1));
            parts.children.extend([nodes + 1, nodes]);
        }
    }
    case("unreached", parts, Known::Number(20))
}

/// A wrong root, parent or place.
fn tree(mut parts: Parts, random: &mut Random) -> Case {
    let nodes = parts.nodes.len();
    if nodes == 1 || random.once_in(4) {
        let at = random.below(3);
        parts.nodes[0][at] = if at == 2 { 5 } else { 0 };
        // a root that is no container holds no entries
        let known = if at < 2 { Known::Number(21) } else { Known::Refused };
        return case("root", parts, known);
    }
    let id = 1 + random.below(nodes - 1);
    let ordered = parts.children.contains(&(id as u32));
    match random.below(4) {
        0 if ordered => {
            parts.nodes[id][1] = parts.nodes[id][1].wrapping_add(1);
            case("place", parts, Known::Number(21))
        }
        1 => {
            parts.nodes[id][0] = id as u32;
            case("own parent", parts, Known::Number(21))
        }
        2 => {
            let glue = parts.nodes.iter().position(|node| node[2] != 1);
            let known = if glue.is_some() { Known::Number(21) } else { Known::Sound };
            parts.nodes[id][0] = glue.map_or(parts.nodes[id][0], |glue| glue as u32);
            case("parent no container", parts, known)
        }
        _ => {
            let containers: Vec<u32> = (0..nodes as u32).filter(|i| parts.nodes[*i as usize][2] == 1).collect();
            let parent = *random.pick(&containers);
            let known = if parent == parts.nodes[id][0] { Known::Sound } else { Known::Number(21) };
            parts.nodes[id][0] = parent;
            case("other parent", parts, known)
        }
    }
}

/// Named entries, definitions or items out of order, or a named target that is no container.
fn order(mut parts: Parts, random: &mut Random) -> Case {
    let containers = parts.nodes.iter().filter(|node| node[2] == 1);
    let starts: Vec<usize> = containers.filter(|node| node[9] > 1).map(|node| node[8] as usize).collect();
    match random.below(3) {
        0 if !starts.is_empty() => {
            let at = *random.pick(&starts);
            let (first, second) = (parts.named[at], parts.named[at + 1]);
            parts.named[at] = [second[0], second[1], first[2]];
            parts.named[at + 1] = [first[0], first[1], second[2]];
            case("named order", parts, Known::Number(21))
        }
        1 if parts.definitions.len() > 1 => {
            let second = parts.definitions[1];
            parts.definitions[0][..2].copy_from_slice(&second[..2]);
            case("definition order", parts, Known::Number(21))
        }
        2 if parts.definitions.iter().any(|definition| definition[3] > 1) => {
            let definition = parts.definitions.iter().find(|definition| definition[3] > 1).unwrap();
            let at = definition[2] as usize;
            parts.items.swap(at, at + 1);
            case("item order", parts, Known::Number(21))
        }
        _ => {
            let glue = parts.nodes.iter().position(|node| node[2] != 1);
            let (Some(glue), false) = (glue, parts.named.is_empty()) else {
                return case("sound, plain names", parts, Known::Sound);
            };
            let at = random.below(parts.named.len());
            parts.named[at][2] = glue as u32;
            // its container may now be unreached
            case("named target", parts, Known::Refused)
        }
    }
}

/// Two containers with one path, or one with neither name nor place.
fn path(mut parts: Parts, random: &mut Random) -> Case {
    let containers: Vec<usize> = (1..parts.nodes.len()).filter(|i| parts.nodes[*i][2] == 1).collect();
    let named_only = |parts: &Parts, i: &usize| parts.nodes[*i][1] == NONE;
    let lonely: Vec<usize> = containers.iter().copied().filter(|i| named_only(&parts, i)).collect();
    if !lonely.is_empty() && random.once_in(2) {
        let id = *random.pick(&lonely);
        (parts.nodes[id][3], parts.nodes[id][4]) = *random.pick(&[(NONE, NONE), (0, 0)]);
        return case("no name and no place", parts, Known::Number(22));
    }
    for first in &containers {
        for second in &containers {
            if first < second && parts.nodes[*first][0] == parts.nodes[*second][0] && parts.nodes[*first][3] != NONE {
                let name = (parts.nodes[*first][3], parts.nodes[*first][4]);
                let empty = name.1 == 0;
                (parts.nodes[*second][3], parts.nodes[*second][4]) = name;
                let known = if empty { Known::Nothing } else { Known::Number(22) };
                return case("one path twice", parts, known);
            }
        }
    }
    case("sound, plain names", parts, Known::Sound)
}

/// A section of broken entries, or no node at all.
fn broken(parts: Parts, random: &mut Random) -> Case {
    let mut case = case("broken entries", parts, Known::Number(19));
    let draft = &mut case.draft;
    match random.below(6) {
        0 => draft.nodes.clear(),
        1 => draft.nodes.push(0),
        2 => draft.nodes.truncate(draft.nodes.len() - 1),
        3 => draft.named.push(0),
        4 => draft.definitions.extend([0, 0, 0]),
        _ => draft.items.extend([0, 0]),
    }
    case
}

/// Entries taken out, doubled or exchanged.
fn edited(mut parts: Parts, random: &mut Random) -> Case {
    let nodes = parts.nodes.len();
    for _ in 0..1 + random.below(2) {
        damage::edit_draft(&mut parts, random);
    }
    let image = (nodes == parts.nodes.len()).then(|| with_counted_index(&parts));
    Case { image, ..case("edited", parts, Known::Nothing) }
}

/// Single words and faults in the tree.
fn damaged(mut parts: Parts, random: &mut Random) -> Case {
    for _ in 0..1 + random.below(2) {
        if random.once_in(3) {
            tree_fault(&mut parts, random);
        } else {
            any_word(&mut parts, random);
        }
    }
    let image = Some(with_counted_index(&parts));
    Case { image, ..case("damaged", parts, Known::Nothing) }
}

fn any_word(parts: &mut Parts, random: &mut Random) {
    let value = *random.pick(&damage::values(parts.counts()));
    let pick = random.next() as usize;
    match random.below(6) {
        0 if !parts.children.is_empty() => {
            let at = pick % parts.children.len();
            parts.children[at] = value;
        }
        1 if !parts.named.is_empty() => set(&mut parts.named, pick, value),
        2 if !parts.definitions.is_empty() => set(&mut parts.definitions, pick, value),
        3 if !parts.items.is_empty() => set(&mut parts.items, pick, value),
        4 if !parts.payload.is_empty() => {
            let at = pick % (parts.payload.len() / 4) * 4;
            parts.payload[at..at + 4].copy_from_slice(&value.to_le_bytes());
        }
        _ => set(&mut parts.nodes, pick, value),
    }
}

fn set<const N: usize>(entries: &mut [[u32; N]], pick: usize, value: u32) {
    let words = entries.as_flattened_mut();
    let at = pick % words.len();
    words[at] = value;
}

/// The image of these sections, its index brought to the number of containers.
fn with_counted_index(parts: &Parts) -> Vec<u8> {
    let containers = parts.nodes.iter().filter(|node| node[2] == 1).count();
    let mut parts = parts.clone();
    parts.index.resize(containers, [0, 0, 0]);
    parts.bytes()
}
