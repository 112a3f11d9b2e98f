//! Random stories, and the images and drafts that they make in any numbering.

use crate::parts::{NONE, Parts};
use crate::random::Random;
use crate::texts::{self, COMMANDS, Laying, OPERATORS, Strings};
use std::collections::{BTreeMap, BTreeSet, HashSet};

pub const TAGS: [u32; 17] = [1, 2, 3, 4, 5, 6, 7, 8, 9, 10, 11, 12, 13, 14, 16, 17, 18];

/// What sort of story to make.
#[derive(Clone, Copy)]
pub struct Shape {
    pub nodes: usize,
    /// Of ten nodes, how many are containers.
    pub containers: usize,
    /// Of ten parents, how many are the newest container.
    pub depth: usize,
    /// Names that seldom clash, and none without name and place.
    pub plain: bool,
    pub laying: Laying,
    /// Node numbers in no order; else as a writer numbers.
    pub shuffled: bool,
    /// Words that a tag does not use hold anything.
    pub loose: bool,
    /// Index texts may be a dot before the path.
    pub dotted: bool,
    /// Containers that are only named may have neither name nor place, unless names are plain.
    pub placeless: bool,
}

impl Shape {
    pub fn random(random: &mut Random) -> Self {
        let nodes = match random.below(10) {
            0 => 1,
            1..4 => 1 + random.below(4),
            4..9 => 1 + random.below(14),
            _ if random.once_in(40) => 1 + random.below(1000),
            _ => 1 + random.below(60),
        };
        Shape {
            nodes,
            containers: 1 + random.below(10),
            depth: random.below(11),
            plain: random.once_in(3),
            laying: *random.pick(&[Laying::Anew, Laying::Shared, Laying::Overlapping, Laying::Scattered]),
            shuffled: random.once_in(2),
            loose: random.once_in(2),
            dotted: random.once_in(3),
            placeless: random.once_in(3),
        }
    }
}

#[derive(Clone, Default)]
struct Node {
    parent: usize,
    place: u32,
    tag: u32,
    name: Option<String>,
    ordered: Vec<usize>,
    named: BTreeMap<String, usize>,
    /// Of a container: its canonical path, and whether the topmost piece is a place.
    path: String,
    top_is_place: bool,
}

/// Nodes as they were made; node 0 is the root.
#[derive(Clone)]
pub struct Story {
    shape: Shape,
    nodes: Vec<Node>,
}

impl Story {
    pub fn random(shape: Shape, random: &mut Random) -> Self {
        let mut root = Node { tag: 1, place: NONE, ..Node::default() };
        if random.once_in(4) {
            root.name = Some(texts::name(random));
        }
        let mut story = Story { shape, nodes: vec![root] };
        let mut containers = vec![0];
        let mut paths = HashSet::from([String::new()]);
        for id in 1..shape.nodes {
            let container = random.below(10) < shape.containers;
            let newest = *containers.last().unwrap();
            let parent = if random.below(10) < shape.depth { newest } else { *random.pick(&containers) };
            let tag = if container { 1 } else { TAGS[1 + random.below(16)] };
            story.nodes.push(Node { parent, tag, ..Node::default() });
            if container {
                story.enter(id, random);
                story.name(id, &mut paths, random);
                containers.push(id);
            } else {
                story.order(id);
            }
        }
        story
    }

    fn order(&mut self, id: usize) {
        let parent = self.nodes[id].parent;
        self.nodes[id].place = self.nodes[parent].ordered.len() as u32;
        self.nodes[parent].ordered.push(id);
    }

    /// Gives a container its entries: ordered, named, both, two named ones.
    fn enter(&mut self, id: usize, random: &mut Random) {
        let ordered = !random.once_in(3);
        if ordered {
            self.order(id);
        } else {
            let places = [NONE, 0, 1, 7, 2147483648];
            self.nodes[id].place = if self.shape.plain { NONE } else { *random.pick(&places) };
        }
        let entries = match random.below(4) {
            0 => 2,
            1 => 1,
            _ => usize::from(!ordered),
        };
        let parent = self.nodes[id].parent;
        for _ in 0..entries {
            let name = if self.shape.plain { texts::plain_name(random) } else { texts::name(random) };
            self.nodes[parent].named.entry(name).or_insert(id);
        }
        let mut number = 0;
        while !ordered && !self.nodes[parent].named.values().any(|node| *node == id) {
            self.nodes[parent].named.entry(format!("{id} {number}")).or_insert(id);
            number += 1;
        }
    }

    /// Gives a container its name and path; no two paths are equal, but for a few.
    fn name(&mut self, id: usize, paths: &mut HashSet<String>, random: &mut Random) {
        let nameless_allowed = self.nodes[id].place != NONE || self.shape.placeless && !self.shape.plain;
        let mut name = match random.below(3) {
            0 if nameless_allowed => None,
            1 if nameless_allowed && random.once_in(4) => Some(String::new()),
            _ if self.shape.plain => Some(texts::plain_name(random)),
            _ => Some(texts::name(random)),
        };
        if !nameless_allowed && name.as_deref() == Some("") {
            name = Some(format!("u{id}"));
        }
        let mut turn = 0;
        loop {
            let (path, top_is_place) = self.path(id, name.as_deref());
            let fresh = paths.insert(path.clone());
            if fresh || (!self.shape.plain && random.once_in(8)) {
                let node = &mut self.nodes[id];
                (node.name, node.path, node.top_is_place) = (name, path, top_is_place);
                return;
            }
            name = Some(format!("u{id} {turn}"));
            turn += 1;
        }
    }

    fn path(&self, id: usize, name: Option<&str>) -> (String, bool) {
        let node = &self.nodes[id];
        let name = name.filter(|name| !name.is_empty());
        let piece = name.map_or_else(|| node.place.to_string(), str::to_owned);
        if node.parent == 0 {
            return (piece, name.is_none());
        }
        let parent = &self.nodes[node.parent];
        (format!("{}.{piece}", parent.path), parent.top_is_place)
    }

    /// Node numbers: who has number 0, 1, ..
    fn numbering(&self, random: &mut Random) -> Vec<usize> {
        let mut order = Vec::with_capacity(self.nodes.len());
        let mut seen = vec![false; self.nodes.len()];
        let mut pending = vec![0];
        while let Some(id) = pending.pop() {
            if !seen[id] {
                seen[id] = true;
                order.push(id);
                pending.extend(self.nodes[id].named.values().rev());
                pending.extend(self.nodes[id].ordered.iter().rev());
            }
        }
        if self.shape.shuffled {
            random.shuffle(&mut order[1..]);
        }
        order
    }

    pub fn parts(&self, random: &mut Random) -> Parts {
        let order = self.numbering(random);
        let mut number = vec![0; order.len()];
        for (new, old) in order.iter().enumerate() {
            number[*old] = new as u32;
        }
        let containers: Vec<u32> = (0..order.len()).filter(|i| self.nodes[*i].tag == 1).map(|i| number[i]).collect();
        let mut filler = Filler {
            strings: Strings::new(self.shape.laying),
            parts: Parts { ink: 18 + random.below(4) as u32, ..Parts::default() },
            nodes: order.len(),
            containers,
            loose: self.shape.loose,
        };
        if random.once_in(2) {
            filler.index(self, &number, random);
        }
        for old in &order {
            filler.node(&self.nodes[*old], &number, random);
        }
        if random.once_in(2) {
            filler.definitions(random);
        }
        if filler.parts.index.is_empty() {
            filler.index(self, &number, random);
        }
        filler.parts.strings = filler.strings.bytes;
        filler.parts
    }
}

/// Fills the sections of an image.
struct Filler {
    strings: Strings,
    parts: Parts,
    nodes: usize,
    containers: Vec<u32>,
    loose: bool,
}

impl Filler {
    fn put(&mut self, text: &str, random: &mut Random) -> (u32, u32) {
        self.strings.put(text, random)
    }

    fn any_text(&mut self, random: &mut Random) -> (u32, u32) {
        let text = texts::text(random);
        self.strings.put(&text, random)
    }

    fn any_optional(&mut self, random: &mut Random) -> (u32, u32) {
        if random.once_in(3) { (NONE, NONE) } else { self.any_text(random) }
    }

    fn any_node(&self, random: &mut Random) -> u32 {
        random.below(self.nodes) as u32
    }

    fn node(&mut self, node: &Node, number: &[u32], random: &mut Random) {
        let loose = self.loose;
        let mut f: [u32; 7] = std::array::from_fn(|_| if loose { edge(random) } else { NONE });
        match node.tag {
            1 => {
                (f[0], f[1]) = self.strings.put_optional(node.name.as_deref(), random);
                f[2] = edge(random);
                f[3] = self.parts.children.len() as u32;
                f[4] = node.ordered.len() as u32;
                f[5] = self.parts.named.len() as u32;
                f[6] = node.named.len() as u32;
                self.parts.children.extend(node.ordered.iter().map(|child| number[*child]));
                for (name, child) in &node.named {
                    let (at, length) = self.put(name, random);
                    self.parts.named.push([at, length, number[*child]]);
                }
            }
            2 => {
                (f[0], f[1]) = self.any_optional(random);
                f[2] = *random.pick(&self.containers);
                f[3] = edge(random);
            }
            3 => (f[0], f[1]) = self.put(COMMANDS[random.below(26)], random),
            4 => {
                (f[0], f[1]) = self.any_optional(random);
                f[2] = if random.once_in(3) { NONE } else { self.any_node(random) };
                (f[3], f[4]) = self.any_optional(random);
                f[5] = edge(random);
                f[6] = random.below(24) as u32;
            }
            6 => (f[0], f[1]) = self.put(OPERATORS[random.below(31)], random),
            8 => f[0] = random.below(2) as u32,
            9 => f[0] = edge(random),
            10 => f[0] = float(random),
            12 => (f[0], f[1]) = self.list(random),
            13 => {
                (f[0], f[1]) = self.any_text(random);
                f[2] = self.any_node(random);
            }
            7 | 11 | 14 | 16 => {
                (f[0], f[1]) = self.any_text(random);
                f[2] = match node.tag {
                    14 => edge(random),
                    16 => random.below(4) as u32,
                    _ => f[2],
                };
            }
            17 => {
                (f[0], f[1]) = self.any_text(random);
                (f[2], f[3]) = self.any_optional(random);
                f[4] = if random.once_in(3) { NONE } else { *random.pick(&self.containers) };
            }
            _ => {}
        }
        let parent = if self.parts.nodes.is_empty() { NONE } else { number[node.parent] };
        self.parts.nodes.push([parent, node.place, node.tag, f[0], f[1], f[2], f[3], f[4], f[5], f[6]]);
    }

    /// A list value's payload: where it starts, and its length.
    fn list(&mut self, random: &mut Random) -> (u32, u32) {
        let (items, origins) = (random.below(4), random.below(3));
        let mut words = vec![items as u32, origins as u32];
        for _ in 0..items {
            let (origin, name) = (self.any_optional(random), self.any_text(random));
            words.extend([origin.0, origin.1, name.0, name.1, edge(random)]);
        }
        for _ in 0..origins {
            let origin = self.any_text(random);
            words.extend([origin.0, origin.1]);
        }
        let start = self.parts.payload.len() as u32;
        self.parts.payload.extend(words.iter().flat_map(|word| word.to_le_bytes()));
        (start, words.len() as u32 * 4)
    }

    fn definitions(&mut self, random: &mut Random) {
        const ITEMS: [&str; 8] = ["low", "high", "a", "b.c", "é", "", " ", "red"];
        let names: BTreeSet<String> =
            (0..random.below(4))
                .map(|_| {
                    if random.once_in(2) { texts::name(random) } else { random.pick(&["red", "size", "a"]).to_string() }
                })
                .collect();
        for name in names {
            let items: BTreeSet<&str> = (0..random.below(5)).map(|_| *random.pick(&ITEMS)).collect();
            let (at, length) = self.put(&name, random);
            self.parts.definitions.push([at, length, self.parts.items.len() as u32, items.len() as u32]);
            for item in items {
                let (at, length) = self.put(item, random);
                self.parts.items.push([at, length, edge(random)]);
            }
        }
    }

    /// One entry for each container: its path, or a dot before it where that may be, or, where paths clash, another's
    /// second text.
    fn index(&mut self, story: &Story, number: &[u32], random: &mut Random) {
        let mut texts = BTreeMap::new();
        let containers = || (0..number.len()).filter(|i| story.nodes[*i].tag == 1);
        let dotted = |i: usize| format!(".{}", story.nodes[i].path);
        for i in containers() {
            let node = &story.nodes[i];
            let text = if story.shape.dotted && node.top_is_place && random.once_in(4) {
                dotted(i)
            } else {
                node.path.clone()
            };
            texts.entry(text).or_insert(number[i]);
        }
        for i in containers() {
            if texts.len() < self.containers.len() && story.nodes[i].top_is_place {
                texts.entry(dotted(i)).or_insert(number[i]);
            }
            if texts.len() < self.containers.len() {
                texts.entry(story.nodes[i].path.clone()).or_insert(number[i]);
            }
        }
        for (text, node) in texts {
            let (at, length) = self.put(&text, random);
            self.parts.index.push([at, length, node]);
        }
    }
}

/// Any word, mostly near an edge.
pub fn edge(random: &mut Random) -> u32 {
    const EDGES: [u32; 12] = [0, 1, 2, 3, 7, 24, 255, 0x7fff_ffff, 0x8000_0000, 0x8000_0001, 0xffff_fffe, 0xffff_ffff];
    if random.once_in(3) { random.word() } else { *random.pick(&EDGES) }
}

/// The bits of any float, NaNs with all sorts of payloads among them.
fn float(random: &mut Random) -> u32 {
    const BITS: [u32; 9] =
        [0, 0x8000_0000, 0x3f80_0000, 0x7f80_0000, 0xff80_0000, 0x7fc0_0000, 0x7f80_0001, 0xffc0_1234, 0x7fa0_0000];
    if random.once_in(2) { random.word() } else { *random.pick(&BITS) }
}
