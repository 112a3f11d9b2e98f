//! Drafts whose choices, diverts, divert-target values and references carry path texts, and the list that gives the
//! texts as the published Rust parses them.

use super::model::{CHOICE, DIVERT, Model, REFERENCE, VALUE, follows, target_word, text_word};
use crate::library::PathList;
use crate::parts::{NONE, Parts};
use crate::published::Mistake;
use crate::random::Random;
use crate::stories::{Shape, Story, edge};
use crate::texts;
use reference::{Draft, Step};
use std::collections::HashMap;

/// A draft, and paths beside it.
#[derive(Clone)]
pub struct Case {
    pub name: &'static str,
    pub ink: u32,
    pub draft: Draft,
    pub paths: PathList,
    /// But for targets, the draft is known to pass 19 to 21.
    pub sound: bool,
}

/// The draft passes 19 to 21, and its list gives each path text of nodes that follow one, some of nodes that are passed
/// over, and no other path.
pub const LISTED: &str = "path texts listed";

pub fn listed(random: &mut Random) -> Case {
    let any = Shape::random(random);
    let nodes = any.nodes.max(*random.pick(&[1, 4, 8, 16]));
    let shape = Shape { nodes, containers: 1 + random.below(7), ..any };
    let parts = Story::random(shape, random).parts(random);
    let (ink, once_in) = (parts.ink, *random.pick(&[None, None, None, Some(2), Some(3), Some(5), Some(8)]));
    let mut draft = with_paths(parts, once_in, random).draft();
    let mut nodes: Vec<u32> = (0..draft.nodes.len() as u32 / 10).collect();
    match random.below(8) {
        0 => nodes.reverse(),
        1 => random.shuffle(&mut nodes),
        _ => {}
    }
    let mut listing = Listing { loose: true, ..Listing::default() };
    listing.texts(&draft, nodes, random);
    set_targets(&mut draft, &listing.paths, random);
    Case { name: LISTED, ink, draft, paths: listing.paths, sound: true }
}

/// The parts with paths for nodes that may have one; once in so many, if at all, one leads wrong.
pub fn with_paths(parts: Parts, wrong: Option<usize>, random: &mut Random) -> Parts {
    let containers = (0..).zip(&parts.nodes).filter(|(_, node)| node[2] == 1).map(|(id, _)| id).collect();
    let mut maker = Maker { parts, containers, wrong };
    maker.nodes(random);
    maker.parts
}

/// Lays a text behind the bytes, or finds it there: it is sought once in so many times, if at all.
fn lay(text: &str, bytes: &mut Vec<u8>, sought: Option<usize>, random: &mut Random) -> [u32; 2] {
    let found = match sought {
        Some(times) if !text.is_empty() && random.once_in(times) => {
            bytes.windows(text.len()).position(|part| part == text.as_bytes())
        }
        _ => None,
    };
    let at = found.unwrap_or(bytes.len());
    if found.is_none() {
        bytes.extend_from_slice(text.as_bytes());
    }
    [at as u32, text.len() as u32]
}

struct Maker {
    parts: Parts,
    containers: Vec<u32>,
    /// Once in so many paths one leads wrong.
    wrong: Option<usize>,
}

impl Maker {
    /// Makes half of the nodes that are no containers and no lists into nodes that may have a path, and gives paths.
    fn nodes(&mut self, random: &mut Random) {
        for node in 1..self.parts.nodes.len() {
            let tag = self.parts.nodes[node][2];
            let turned = ![1, 12].contains(&tag) && random.once_in(2);
            let tag = if turned { *random.pick(&[CHOICE, DIVERT, DIVERT, VALUE, REFERENCE]) } else { tag };
            if [CHOICE, DIVERT, VALUE, REFERENCE].contains(&tag) {
                self.node(node, tag, random);
            }
        }
    }

    fn node(&mut self, node: usize, tag: u32, random: &mut Random) {
        let any = random.below(self.parts.nodes.len()) as u32;
        let container = *random.pick(&self.containers);
        let mut record = self.parts.nodes[node];
        record[2] = tag;
        match tag {
            CHOICE => record[5..7].copy_from_slice(&[container, edge(random)]),
            DIVERT => {
                let (variable, external) = match random.below(8) {
                    0 => (true, 0),
                    1 => (false, 2),
                    2 => (true, 2),
                    _ => (false, 0),
                };
                let name = if variable { self.put(&texts::name(random), random) } else { [NONE; 2] };
                let target = if random.once_in(3) { NONE } else { any };
                let flags = random.below(24) as u32 & !2 | external;
                record[5..].copy_from_slice(&[target, name[0], name[1], edge(random), flags]);
            }
            VALUE => record[5] = any,
            _ => {
                let name = self.put(&texts::name(random), random);
                record[3..5].copy_from_slice(&name);
                record[7] = if random.once_in(3) { NONE } else { container };
            }
        }
        let has_text = tag == VALUE || !random.once_in(4);
        let text = if has_text { self.path(node, tag, random) } else { [NONE; 2] };
        record[text_word(tag)..][..2].copy_from_slice(&text);
        self.parts.nodes[node] = record;
    }

    /// Lays a text into the strings, or finds it there.
    fn put(&mut self, text: &str, random: &mut Random) -> [u32; 2] {
        let strings = &mut self.parts.strings;
        let sought = (strings.len() < 1000).then_some(4);
        lay(text, strings, sought, random)
    }

    /// The text of a path for a node.
    fn path(&mut self, node: usize, tag: u32, random: &mut Random) -> [u32; 2] {
        let wrong = self.wrong.is_some_and(|times| random.once_in(times));
        let mut way = Way::new(&self.parts, node as u32, random);
        way.wander(random);
        match random.below(3) {
            _ if !wrong => way.come_right(tag, random),
            0 => way.come_to_leaf(random),
            _ => way.lose(random),
        }
        let text = if wrong && random.once_in(20) { texts::text(random) } else { way.text() };
        self.put(&text, random)
    }
}

/// Steps through the tree, as the pieces of a path text.
struct Way<'a> {
    parts: &'a Parts,
    relative: bool,
    pieces: Vec<String>,
    /// Where the way has been, the last one where it is.
    at: Vec<u32>,
}

impl<'a> Way<'a> {
    fn new(parts: &'a Parts, origin: u32, random: &mut Random) -> Self {
        if random.once_in(2) {
            return Way { parts, relative: false, pieces: vec![], at: vec![0] };
        }
        let skipped = match random.below(16) {
            0 => texts::plain_name(random),
            1 => random.pick(&["0", "4294967296"]).to_string(),
            _ => "^".to_owned(),
        };
        Way { parts, relative: true, pieces: vec![skipped], at: vec![parts.nodes[origin as usize][0]] }
    }

    fn here(&self) -> [u32; 10] {
        self.parts.nodes[*self.at.last().unwrap() as usize]
    }

    fn take(&mut self, piece: String, node: u32) {
        self.pieces.push(piece);
        self.at.push(node);
    }

    fn wander(&mut self, random: &mut Random) {
        for _ in 0..*random.pick(&[0, 1, 1, 1, 2, 2, 3, 3, 4, 6]) {
            self.step(random);
        }
    }

    /// A step down by place or name, or up.
    fn step(&mut self, random: &mut Random) {
        let here = self.here();
        let (children, named) = if here[2] == 1 { (here[7] as usize, here[9] as usize) } else { (0, 0) };
        if named > 0 && random.once_in(2) {
            let [at, length, node] = self.parts.named[here[8] as usize + random.below(named)];
            let name = String::from_utf8_lossy(&self.parts.strings[at as usize..][..length as usize]);
            // a name that is no component of its own leads elsewhere
            if can_be_spelt(&name) || random.once_in(30) {
                self.take(name.into_owned(), node);
            }
        } else if children > 0 && !random.once_in(5) {
            let index = random.below(children);
            let spelt = *random.pick(&["", "", "", "", "", "+", "0"]);
            self.take(format!("{spelt}{index}"), self.parts.children[here[6] as usize + index]);
        } else if here[0] != NONE {
            self.take("^".to_owned(), here[0]);
        }
    }

    /// Ends at a container where one is due.
    fn come_right(&mut self, tag: u32, random: &mut Random) {
        if self.here()[2] == 1 || tag == VALUE || tag == DIVERT && random.once_in(2) {
            return;
        }
        if random.once_in(2) || self.at.len() == 1 {
            self.take("^".to_owned(), self.here()[0]);
        } else {
            self.pieces.pop();
            self.at.pop();
        }
    }

    /// Ends at a node that is no container, if there is one below.
    fn come_to_leaf(&mut self, random: &mut Random) {
        let here = self.here();
        if here[2] != 1 {
            return;
        }
        let children = &self.parts.children[here[6] as usize..][..here[7] as usize];
        let leaves = (0..).zip(children).filter(|(_, child)| self.parts.nodes[**child as usize][2] != 1);
        let leaves: Vec<(usize, u32)> = leaves.map(|(index, child)| (index, *child)).collect();
        if !leaves.is_empty() {
            let (index, child) = *random.pick(&leaves);
            self.take(index.to_string(), child);
        }
    }

    /// Ends nowhere.
    fn lose(&mut self, random: &mut Random) {
        let here = self.here();
        let piece = match random.below(6) {
            0 => "^.".repeat(1 + self.parts.nodes.len().min(9)) + "^",
            1 => here[7].wrapping_add(random.below(3) as u32).to_string(),
            2 => random.pick(&["4294967295", "4294967296", "4294967297", "18446744073709551615"]).to_string(),
            3 => "18446744073709551616".to_owned(),
            _ => texts::name(random),
        };
        self.pieces.push(piece);
        if random.once_in(4) {
            self.pieces.push(random.pick(&["^", "0", "a"]).to_string());
        }
    }

    fn text(&self) -> String {
        format!("{}{}", if self.relative { "." } else { "" }, self.pieces.join("."))
    }
}

fn can_be_spelt(name: &str) -> bool {
    let (_, steps) = reference::steps_of(&format!("x.{name}"));
    matches!(&steps[..], [_, Step::Name(spelt)] if spelt == name)
}

/// The path text of a node.
pub fn text_of<'a>(draft: &'a Draft, record: &[u32]) -> Option<&'a str> {
    if ![CHOICE, DIVERT, VALUE, REFERENCE].contains(&record[2]) {
        return None;
    }
    let (at, length) = (record[text_word(record[2])] as usize, record[text_word(record[2]) + 1] as usize);
    core::str::from_utf8(draft.strings.get(at..at.checked_add(length)?)?).ok()
}

/// The path texts of a draft, each with its node.
pub fn path_texts(draft: &Draft) -> impl Iterator<Item = (u32, &str)> {
    let records = (0..).zip(draft.nodes.chunks_exact(10));
    records.filter_map(|(node, record)| Some((node, text_of(draft, record)?)))
}

/// A list as it grows.
#[derive(Default)]
pub struct Listing {
    pub paths: PathList,
    /// Components and names are shared and lie scattered.
    pub loose: bool,
    /// Where the components of a text lie.
    known: HashMap<String, (u32, u32)>,
}

impl Listing {
    /// One to be added to.
    pub fn of(paths: PathList) -> Self {
        Listing { paths, loose: true, ..Listing::default() }
    }

    /// Lists the path texts, the nodes in this order; of a node that is passed over the entry may lack.
    pub fn texts(&mut self, draft: &Draft, nodes: impl IntoIterator<Item = u32>, random: &mut Random) {
        for node in nodes {
            let record = &draft.nodes[10 * node as usize..][..10];
            if let Some(text) = text_of(draft, record).filter(|_| follows(record) || random.once_in(2)) {
                self.put(node, text, random);
            }
        }
    }

    pub fn put(&mut self, node: u32, text: &str, random: &mut Random) {
        let (relative, steps) = reference::steps_of(text);
        let known = self.known.get(text).copied().filter(|_| self.loose && random.once_in(2));
        let (first, count) = known.unwrap_or_else(|| self.components(&steps, random));
        self.known.insert(text.to_owned(), (first, count));
        self.paths.entries.extend([node, u32::from(relative), first, count]);
    }

    /// Lays components behind those that are there; words that a kind does not use hold anything.
    fn components(&mut self, steps: &[Step], random: &mut Random) -> (u32, u32) {
        if self.loose && random.once_in(8) {
            self.paths.components.extend([edge(random), edge(random), edge(random)]);
        }
        let first = self.paths.components.len() as u32 / 3;
        for step in steps {
            let words = match step {
                Step::Parent => [0, edge(random), edge(random)],
                Step::Index(index) => [1, *index, edge(random)],
                Step::Name(name) => self.name(name, random),
            };
            self.paths.components.extend(words);
        }
        (first, steps.len() as u32)
    }

    fn name(&mut self, name: &str, random: &mut Random) -> [u32; 3] {
        let [at, length] = lay(name, &mut self.paths.names, self.loose.then_some(2), random);
        [2, at, length]
    }
}

/// Of nodes that follow a path: NONE, the node at its end, or any word.
fn set_targets(draft: &mut Draft, paths: &PathList, random: &mut Random) {
    let unset = draft.clone();
    let model = Model::new(&unset, paths, Mistake::None);
    for node in 0..model.nodes() {
        let Some(entry) = model.followed(node) else {
            continue;
        };
        let target = match random.below(3) {
            0 => NONE,
            1 => model.end(entry).unwrap_or(NONE),
            _ => edge(random),
        };
        draft.nodes[10 * node as usize + target_word(model.tag(node))] = target;
    }
}
