//! What is measured: images, and drafts that become images.

use crate::parts::{NONE, Parts, word_at};
use crate::path_index;
use crate::random::Random;
use crate::stories::{Shape, Story};
use crate::texts::{self, Laying};
use reference::{Draft, Step, Written};

/// An image, the draft that it was written from, and what is asked of it.
pub struct Input {
    pub name: &'static str,
    pub image: Vec<u8>,
    pub draft: Option<Draft>,
    pub asked: bool,
    pub walks: Vec<(u32, bool, Vec<Step>)>,
    pub look_ups: Vec<LookUps>,
}

/// Names of list items to look up, measured together.
pub struct LookUps {
    pub name: &'static str,
    pub items: Vec<String>,
}

impl LookUps {
    /// A thousand names.
    fn new(name: &'static str, item: impl Fn(usize) -> String) -> Self {
        LookUps { name, items: (0..1_000).map(item).collect() }
    }
}

impl Input {
    pub fn nodes(&self) -> u32 {
        word_at(&self.image, 24)
    }
}

/// Each input is made when its turn comes.
pub const ALL: [fn(&mut Random) -> Input; 19] = [
    |random| asked("20,000 mixed nodes", mixed(20_000, random), random),
    |random| asked("200,000 mixed nodes", mixed(200_000, random), random),
    |random| asked("chain of 5,000 containers", chain(5_000), random),
    |random| asked("texts of 500 characters", text_heavy(random), random),
    |random| asked("1 MB of random UTF-8", one_text(random), random),
    |random| asked("100,000 distinct texts", with_strings(distinct_texts(100_000)), random),
    |random| asked("100,000 equal texts", with_strings(vec!["the same text".to_owned(); 100_000]), random),
    |_| looked_up("sixty definitions of twenty items"),
    |_| written("2,000 equal texts of 10 kB that lie apart", with_strings(vec![front(10_000); 2_000])),
    |_| written("20,000 texts of 1 kB with a common front", with_strings(numbered(&front(1_000), 20_000))),
    |_| written("20,000 definitions with a common front", defined(&numbered(&front(1_000), 20_000))),
    |_| written("20,000 named entries with a common front", named(&numbered(&front(1_000), 20_000))),
    |_| written("one list of 100,000 items and origins", one_list(100_000)),
    |_| overlaid("5,000 definitions lapped in one string", lapped(defined(&fronts(5_000)))),
    |_| overlaid("5,000 named entries lapped in one string", lapped(named(&fronts(5_000)))),
    |_| loaded("20,000 definitions lapped in one string", lapped(defined(&fronts(20_000)))),
    |_| loaded("20,000 named entries lapped in one string", lapped(named(&fronts(20_000)))),
    |_| loaded("lapped chain of 5,000 containers", lapped_chain(5_000)),
    |_| loaded("lapped chain of 20,000 containers", lapped_chain(20_000)),
];

pub fn mixed(nodes: usize, random: &mut Random) -> Parts {
    let shape = Shape {
        nodes,
        containers: 3,
        depth: 3,
        plain: true,
        laying: Laying::Shared,
        shuffled: true,
        loose: false,
        dotted: false,
        placeless: false,
    };
    with_definitions(Story::random(shape, random).parts(random))
}

/// The draft and its image; loaded, asked and written.
fn asked(name: &'static str, parts: Parts, random: &mut Random) -> Input {
    let draft = parts.draft();
    let image = image_of(name, &draft);
    let view = view(&image);
    // a published step up tests the node's texts again, so few walks where few nodes hold much text
    let count = (50 * view.node_count()).min(10_000);
    let walks = (0..count).map(|_| walk(&view, &image, random)).collect();
    let item = |turn| format!("{}item {turn}", if turn % 2 == 0 { "list 3." } else { "" });
    let look_ups = vec![LookUps::new("list look-ups", item)];
    Input { name, image, draft: Some(draft), asked: true, walks, look_ups }
}

/// The draft and its image; loaded and written.
fn written(name: &'static str, parts: Parts) -> Input {
    let draft = parts.draft();
    let image = image_of(name, &draft);
    Input { name, image, draft: Some(draft), asked: false, walks: vec![], look_ups: vec![] }
}

/// Sixty lists of twenty items, each in one list: in which definition an item stands decides how soon a search ends.
fn looked_up(name: &'static str) -> Input {
    let item = |list: usize, turn: usize| format!("item {list:02} {:02}", turn % 20);
    let dotted = |list: usize, turn: usize| format!("d{list:02}.{}", item(list, turn));
    let mut parts = with_strings(vec![]);
    for list in 0..60 {
        let (at, length) = place(&mut parts.strings, &format!("d{list:02}"));
        parts.definitions.push([at, length, parts.items.len() as u32, 20]);
        for value in 0..20 {
            let (at, length) = place(&mut parts.strings, &item(list, value));
            parts.items.push([at, length, value as u32]);
        }
    }
    let look_ups = vec![
        LookUps::new("in the last", |turn| item(59, turn)),
        LookUps::new("in any", |turn| item(turn * 7 % 60, turn)),
        LookUps::new("in the first", |turn| item(0, turn)),
        LookUps::new("in none", |turn| format!("item {:02} {:02}", turn % 60, 20 + turn % 70)),
        LookUps::new("dot, the last", |turn| dotted(59, turn)),
        LookUps::new("dot, the first", |turn| dotted(0, turn)),
        LookUps::new("dot, none", |turn| dotted(60, turn)),
    ];
    Input { look_ups, ..written(name, parts) }
}

/// An image that no writer gives, loaded; its sections as a draft, written.
fn overlaid(name: &'static str, parts: Parts) -> Input {
    Input { draft: Some(parts.draft()), ..loaded(name, parts) }
}

/// An image that no writer gives; only loaded.
fn loaded(name: &'static str, parts: Parts) -> Input {
    let image = parts.bytes();
    assert_eq!(path_index::row(&image), 0, "{name}");
    Input { name, image, draft: None, asked: false, walks: vec![], look_ups: vec![] }
}

pub fn image_of(name: &str, draft: &Draft) -> Vec<u8> {
    match reference::write(21, draft) {
        Written::Image(image) if path_index::row(&image) == 0 => image,
        _ => panic!("{name}: a sound draft"),
    }
}

/// The image as the published Rust loads it.
pub fn view(image: &[u8]) -> reference::Image<'_> {
    reference::load(image).unwrap_or_else(|reason| panic!("{reason}"))
}

/// Up to eight steps down by name or place, sometimes up again.
fn walk(view: &reference::Image<'_>, image: &[u8], random: &mut Random) -> (u32, bool, Vec<Step>) {
    let strings = word_at(image, 76) as usize;
    let (mut at, mut steps) = (0, vec![]);
    for _ in 0..8 {
        let (children, named) = (view.child_count(at).unwrap_or(0), view.named_child_count(at).unwrap_or(0));
        let step = if random.once_in(8) && at != 0 {
            Step::Parent
        } else if named > 0 && random.once_in(2) {
            let entry = view.named_child_at(at, random.below(named)).expect("a named child");
            let name = &image[strings + entry.name.0 as usize..][..entry.name.1 as usize];
            Step::Name(core::str::from_utf8(name).expect("a name").to_owned())
        } else if children > 0 {
            Step::Index(random.below(children) as u32)
        } else {
            break;
        };
        at = view.resolve_path(at, true, std::slice::from_ref(&step)).unwrap_or(0);
        steps.push(step);
    }
    (0, random.once_in(2), steps)
}

fn place(strings: &mut Vec<u8>, text: &str) -> (u32, u32) {
    let at = strings.len() as u32;
    strings.extend_from_slice(text.as_bytes());
    (at, text.len() as u32)
}

/// Eight lists of 500 items, each in two lists.
fn with_definitions(mut parts: Parts) -> Parts {
    (parts.definitions, parts.items) = (vec![], vec![]);
    for list in 0..8 {
        let (at, length) = place(&mut parts.strings, &format!("list {list}"));
        parts.definitions.push([at, length, parts.items.len() as u32, 500]);
        let mut names: Vec<String> = (0..500).map(|item| format!("item {}", list / 2 * 500 + item)).collect();
        names.sort();
        for (value, name) in names.iter().enumerate() {
            let (at, length) = place(&mut parts.strings, name);
            parts.items.push([at, length, value as u32]);
        }
    }
    parts
}

fn chain(nodes: u32) -> Parts {
    let mut parts = Parts { ink: 21, ..Parts::default() };
    for node in 0..nodes {
        let (parent, place) = if node == 0 { (NONE, NONE) } else { (node - 1, 0) };
        let last = node + 1 == nodes;
        parts.nodes.push([parent, place, 1, NONE, NONE, 0, node, u32::from(!last), 0, 0]);
        if !last {
            parts.children.push(node + 1);
        }
    }
    parts
}

/// Texts in no order.
fn distinct_texts(count: u64) -> Vec<String> {
    (0..count).map(|turn| format!("text number {}", turn * 7_919 % count)).collect()
}

pub fn with_strings(texts: Vec<String>) -> Parts {
    let mut parts = Parts { ink: 21, ..Parts::default() };
    parts.nodes.push([NONE, NONE, 1, NONE, NONE, 0, 0, texts.len() as u32, 0, 0]);
    for (index, text) in texts.iter().enumerate() {
        let (at, length) = place(&mut parts.strings, text);
        parts.nodes.push([0, index as u32, 11, at, length, NONE, NONE, NONE, NONE, NONE]);
        parts.children.push(index as u32 + 1);
    }
    parts
}

fn text_heavy(random: &mut Random) -> Parts {
    let text = |turn: usize, random: &mut Random| -> String {
        let ascii = (0..500).map(|_| (32 + random.below(95)) as u8 as char);
        if turn % 4 == 0 { (0..500).map(|_| texts::any_char(random)).collect() } else { ascii.collect() }
    };
    with_strings((0..4_000).map(|turn| text(turn, random)).collect())
}

fn one_text(random: &mut Random) -> Parts {
    let mut text = String::new();
    while text.len() < 1 << 20 {
        let number = random.below(0x11_0000) as u32;
        text.extend(char::from_u32(number));
    }
    with_strings(vec![text])
}

/// A text of so many bytes.
fn front(bytes: usize) -> String {
    "the same words in front of all of them, ".chars().cycle().take(bytes).collect()
}

/// Texts with one front, in order.
fn numbered(front: &str, count: u32) -> Vec<String> {
    (0..count).map(|number| format!("{front}{number:06}")).collect()
}

/// Each a front of the next.
fn fronts(count: usize) -> Vec<String> {
    (1..=count).map(|bytes| "x".repeat(bytes)).collect()
}

/// Definitions of one item each, whose names are in order.
fn defined(names: &[String]) -> Parts {
    let mut parts = with_strings(vec![]);
    for (number, name) in names.iter().enumerate() {
        let (at, length) = place(&mut parts.strings, name);
        parts.definitions.push([at, length, number as u32, 1]);
        parts.items.push([at, length, number as u32]);
    }
    parts
}

/// A root with named containers, whose names are in order.
fn named(names: &[String]) -> Parts {
    let mut parts = Parts { ink: 21, ..Parts::default() };
    let count = names.len() as u32;
    parts.nodes.push([NONE, NONE, 1, NONE, NONE, 0, 0, 0, 0, count]);
    for (number, name) in names.iter().enumerate() {
        let (at, length) = place(&mut parts.strings, name);
        parts.named.push([at, length, number as u32 + 1]);
        parts.nodes.push([0, NONE, 1, at, length, 0, 0, 0, count, 0]);
    }
    parts
}

/// The texts of `fronts`, laid over each other; the path of a container is its name.
fn lapped(mut parts: Parts) -> Parts {
    let texts = parts.named.iter_mut().chain(&mut parts.items).map(|entry| &mut entry[0]);
    let names = parts.nodes.iter_mut().filter(|node| node[3] != NONE).map(|node| &mut node[3]);
    texts.chain(names).chain(parts.definitions.iter_mut().map(|entry| &mut entry[0])).for_each(|at| *at = 0);
    parts.strings.truncate(parts.nodes.len().max(parts.items.len()));
    parts.strings.fill(b'x');
    parts.index = (0..parts.nodes.len() as u32).map(|node| [0, node, node]).collect();
    parts
}

/// A root with one list: items and origins of distinct names, in no order.
fn one_list(count: u32) -> Parts {
    let mut parts = with_strings(vec![]);
    let mut words = vec![count, count];
    let shuffled = |number: u32| u64::from(number) * 7_919 % u64::from(count);
    let origin = place(&mut parts.strings, "the list");
    for number in 0..count {
        let name = place(&mut parts.strings, &format!("item number {}", shuffled(number)));
        words.extend([origin.0, origin.1, name.0, name.1, number]);
    }
    for number in 0..count {
        let name = place(&mut parts.strings, &format!("list number {}", shuffled(number)));
        words.extend([name.0, name.1]);
    }
    parts.payload = words.iter().flat_map(|word| word.to_le_bytes()).collect();
    parts.nodes[0][7] = 1;
    parts.nodes.push([0, 0, 12, 0, parts.payload.len() as u32, NONE, NONE, NONE, NONE, NONE]);
    parts.children.push(1);
    parts
}

/// A chain whose paths are all fronts of one string.
pub fn lapped_chain(nodes: u32) -> Parts {
    let mut parts = chain(nodes);
    parts.strings = (0..2 * nodes).map(|at| if at % 2 == 0 { b'0' } else { b'.' }).collect();
    parts.index = (0..nodes).map(|node| [0, (2 * node).saturating_sub(1), node]).collect();
    parts
}
