//! Families of small images, whole: every member can be named by a number.

use crate::parts::{ENTRY_SIZES, HEADER, NONE, Parts, repair, set_word};
use crate::texts::{COMMANDS, OPERATORS};

pub struct Family {
    pub name: &'static str,
    pub size: u64,
    pub member: fn(u64) -> Vec<u8>,
}

pub const FAMILIES: [Family; 11] = [
    Family { name: "trees", size: TREES, member: |number| tree(number).bytes() },
    Family { name: "named entries", size: 3 * 2 * 45 * 45, member: named },
    Family { name: "stack orders", size: 6 * 6 * 4 * 2 * 2, member: stack },
    Family { name: "path indexes", size: 4 * 3 * 60 * 60, member: index },
    Family { name: "paths of two pieces", size: 2 * 60 * 60 * 3, member: two_pieces },
    Family { name: "definitions", size: 64 * 64 * 9 * 3, member: definitions },
    Family { name: "records", size: 17 * 45 * 16 * 16, member: record },
    Family { name: "headers", size: 20 * 20 * 15 * 15, member: header },
    Family { name: "lists", size: 11 * 11 * 16 * 16, member: list },
    Family { name: "UTF-8", size: 26 * 26 * 26 * 26, member: utf8 },
    Family { name: "names", size: 57 * 2 * 6, member: names },
];

pub const TREES: u64 = 30 * 30 * 6 * 16 * 5;

/// Takes a member's number apart, digit by digit.
struct Digits(u64);

impl Digits {
    fn below(&mut self, end: u64) -> usize {
        let digit = self.0 % end;
        self.0 /= end;
        digit as usize
    }

    fn of<T: Copy>(&mut self, from: &[T]) -> T {
        from[self.below(from.len() as u64)]
    }
}

const ROOT: [u32; 10] = [NONE, NONE, 1, NONE, NONE, 0, 0, 0, 0, 0];
const GLUE: [u32; 10] = [0, 0, 5, NONE, NONE, NONE, NONE, NONE, NONE, NONE];

fn with_root(strings: &str) -> Parts {
    Parts {
        ink: 21,
        nodes: vec![ROOT],
        index: vec![[0, 0, 0]],
        strings: strings.as_bytes().to_vec(),
        ..Parts::default()
    }
}

/// Three nodes with all parents, places, kinds and entries. Strings: `x`, `y`, `x.y`, `y.x`.
pub fn tree(number: u64) -> Parts {
    let mut digits = Digits(number);
    let mut parts = with_root("x.y.x");
    let mut containers = vec![];
    for node in 1..3_u32 {
        let mut record = GLUE;
        record[0] = digits.of(&[0, 1, 2, 3, NONE]);
        record[1] = digits.of(&[0, 1, NONE]);
        if digits.below(2) == 0 {
            record[2] = 1;
            record[3..].copy_from_slice(&[if node == 1 { 0 } else { 2 }, 1, 0, 0, 0, 0, 0]);
            containers.push(node);
        }
        parts.nodes.push(record);
    }
    let (first, second) = digits.of(&[(0, 0), (0, 1), (0, 2), (1, 0), (1, 1), (2, 0)]);
    let words = [digits.below(4) as u32, digits.below(4) as u32];
    parts.children = words[..first as usize + second as usize].to_vec();
    parts.nodes[0][7] = first;
    for (turn, node) in containers.iter().enumerate() {
        let record = &mut parts.nodes[*node as usize];
        (record[6], record[7]) = if turn == 0 { (first, second) } else { (first + second, 0) };
    }
    let named = digits.below(5) as u32;
    if named < 4 {
        parts.named.push([0, 1, named]);
        parts.nodes[0][9] = 1;
        for node in &containers {
            parts.nodes[*node as usize][8] = 1;
        }
    }
    for node in containers {
        let alone = parts.nodes[node as usize][0] == 0;
        let (at, length) = match (node, alone) {
            (1, true) => (0, 1),
            (1, false) => (2, 3),
            (_, true) => (2, 1),
            _ => (0, 3),
        };
        parts.index.push([at, length, node]);
    }
    parts.index.sort_by_key(|entry| parts.strings[entry[0] as usize..][..entry[1] as usize].to_vec());
    parts
}

/// Places of texts in the strings `ab`, ff: good ones, one that is no text, ones outside or missing.
const TEXTS: [(u32, u32); 9] = [(0, 1), (1, 1), (0, 2), (3, 0), (2, 1), (3, 1), (NONE, NONE), (NONE, 0), (0, NONE)];

/// Two named entries of the root, of all texts and nodes; node 1 is a container, 2 glue, 3 a container below 1.
fn named(number: u64) -> Vec<u8> {
    let mut digits = Digits(number);
    let mut parts = with_root("ab");
    parts.strings.push(0xff);
    let parent = digits.of(&[0, 3, 1]);
    let ordered = digits.below(2) == 0;
    parts.children = if ordered { vec![1, 2, 3] } else { vec![2, 3] };
    parts.nodes[0][7] = parts.children.len() as u32 - 1;
    parts.nodes[0][9] = 2;
    let glue = u32::from(ordered);
    let start = parts.nodes[0][7];
    parts.nodes.push([parent, if ordered { 0 } else { NONE }, 1, 0, 1, 0, start, 1, 2, 0]);
    parts.nodes.push([0, glue, 5, NONE, NONE, NONE, NONE, NONE, NONE, NONE]);
    parts.nodes.push([1, 0, 1, NONE, NONE, 0, start + 1, 0, 2, 0]);
    for _ in 0..2 {
        let (at, length) = digits.of(&TEXTS);
        parts.named.push([at, length, digits.of(&[1, 0, 2, 4, NONE])]);
    }
    parts.strings.extend_from_slice(b"a.0");
    parts.index.extend([[3, 1, 1], [3, 3, 3]]);
    parts.bytes()
}

/// Two containers below the root with a fault each, in both orders, also named by the root, one level down or not.
fn stack(number: u64) -> Vec<u8> {
    let mut digits = Digits(number);
    let faults = [digits.below(6), digits.below(6)];
    let names = digits.below(4);
    let exchanged = digits.below(2) == 1;
    let deep = digits.below(2) == 1;
    let mut parts = with_root("ab");
    parts.strings.push(0xff);
    parts.children = if exchanged { vec![2, 1] } else { vec![1, 2] };
    parts.nodes[0][7] = 2;
    for side in 0..2 {
        if names >> side & 1 == 1 {
            parts.named.push([side, 1, side + 1]);
            parts.nodes[0][9] += 1;
        }
    }
    for side in 0..2_u32 {
        let place = if exchanged { 1 - side } else { side };
        parts.nodes.push([0, place, 1, side, 1, 0, 0, 0, 0, 0]);
    }
    // below each: a container and glue; the fault lies with the container itself, or with the one below
    for side in 0..2_u32 {
        let (container, glue) = (3 + 2 * side, 4 + 2 * side);
        parts.nodes.push([1 + side, 0, 1, NONE, NONE, 0, 0, 0, 0, 0]);
        parts.nodes.push([1 + side, 1, 5, NONE, NONE, NONE, NONE, NONE, NONE, NONE]);
        let holder = if deep { container } else { 1 + side };
        match faults[side as usize] {
            1 => parts.nodes[glue as usize][1] = 7,
            2 => fault(&mut parts, holder, [0, 1, glue]),
            3 => fault(&mut parts, holder, [2, 1, glue]),
            4 => fault(&mut parts, holder, [0, 1, 0]),
            5 => fault(&mut parts, holder, [0, 1, NONE]),
            _ => {}
        }
    }
    lay_out(&mut parts);
    parts.bytes()
}

/// A named entry, to be laid out with its holder.
fn fault(parts: &mut Parts, holder: u32, entry: [u32; 3]) {
    parts.nodes[holder as usize][9] = 1;
    parts.named.push(entry);
}

/// Starts, children and index of `stack`: named entries of 1 and 2 come before those of 3 and 5 by construction only
/// if all are equally deep, which they are.
fn lay_out(parts: &mut Parts) {
    parts.children.extend([3, 4, 5, 6]);
    let (mut children, mut named) = (0, 0);
    for node in 0..parts.nodes.len() {
        if parts.nodes[node][2] == 1 {
            let count = if node < 3 { 2 } else { 0 };
            let names = parts.nodes[node][9];
            parts.nodes[node][6..10].copy_from_slice(&[children, count, named, names]);
            (children, named) = (children + count, named + names);
        }
    }
    let at = parts.strings.len() as u32;
    parts.strings.extend_from_slice(b"a.0b.0");
    parts.index.extend([[0, 1, 1], [at, 3, 3], [1, 1, 2], [at + 3, 3, 5]]);
}

/// A root with one container, and two index entries of all texts and targets.
fn index(number: u64) -> Vec<u8> {
    const FITS: [&str; 13] = ["", "a", "b", ".a", "3", ".3", "..3", "03", "3.", "0", ".", "4294967295", ".4294967295"];
    let mut digits = Digits(number);
    let strings = FITS.concat();
    let place = |text: &str| {
        let at = FITS.iter().take_while(|other| **other != text).map(|other| other.len()).sum::<usize>();
        (at as u32, text.len() as u32)
    };
    let mut parts = with_root(&strings);
    parts.strings.push(0xff);
    parts.index.clear();
    let name = digits.of(&[None, Some(""), Some("a"), Some("3")]);
    let number = digits.of(&[3, 0, NONE]);
    let mut child = [0, number, 1, NONE, NONE, 0, 0, 0, 1, 0];
    if let Some(name) = name {
        (child[3], child[4]) = place(name);
    }
    if number == 0 {
        parts.children = vec![1];
        parts.nodes[0][7] = 1;
        (child[6], child[8]) = (1, 0);
    } else {
        parts.named = vec![[place("a").0, 1, 1]];
        parts.nodes[0][9] = 1;
    }
    parts.nodes.push(child);
    for _ in 0..2 {
        let bad = [(strings.len() as u32, 1), (NONE, NONE)];
        let text = digits.below(15);
        let (at, length) = FITS.get(text).map_or_else(|| bad[text - 13], |text| place(text));
        parts.index.push([at, length, digits.of(&[0, 1, 2, NONE])]);
    }
    parts.bytes()
}

/// A container below the root and one below that, of all names and places, filed in text order under their paths and
/// texts close to these. Of some the upper one's entry stands last and is broken: what is refused before it is then the
/// lower one's.
fn two_pieces(number: u64) -> Vec<u8> {
    let mut digits = Digits(number);
    let mut parts = Parts { index: vec![], ..with_root("a") };
    let (mut path, mut filed) = (String::new(), vec![(digits.of(&["", "."]).to_owned(), 0)]);
    for node in 1..3 {
        let name = digits.of(&[None, Some(""), Some("a"), Some("3")]);
        let place = digits.of(&[3, 0, NONE]);
        hang(&mut parts, name, place);
        let piece = name.filter(|name| !name.is_empty()).map_or(place.to_string(), str::to_owned);
        path = if node == 1 { piece } else { format!("{path}.{piece}") };
        let (before, behind) = digits.of(&[("", ""), (".", ""), ("..", ""), ("", "."), (".", ".")]);
        filed.push((format!("{before}{path}{behind}"), node));
    }
    filed.sort();
    for (text, node) in &filed {
        let (at, length) = put(&mut parts.strings, text);
        parts.index.push([at, length, *node]);
    }
    if let Some(broken) = digits.of(&[None, Some([NONE, NONE, 1]), Some([0, 1, NONE])]) {
        parts.index.retain(|entry| entry[2] != 1);
        parts.index.push(broken);
    }
    parts.bytes()
}

/// A container below the last node: its ordered child where the place is 0, else a named one.
fn hang(parts: &mut Parts, name: Option<&str>, place: u32) {
    let node = parts.nodes.len() as u32;
    let above = &mut parts.nodes[node as usize - 1];
    if place == 0 {
        above[7] = 1;
        parts.children.push(node);
    } else {
        above[9] = 1;
        parts.named.push([0, 1, node]);
    }
    let (at, length) = name.map_or((NONE, NONE), |name| put(&mut parts.strings, name));
    parts.nodes.push([node - 1, place, 1, at, length, 0, parts.children.len() as u32, 0, parts.named.len() as u32, 0]);
}

fn put(strings: &mut Vec<u8>, text: &str) -> (u32, u32) {
    let at = strings.len() as u32;
    strings.extend_from_slice(text.as_bytes());
    (at, text.len() as u32)
}

/// Two definitions and up to two items.
fn definitions(number: u64) -> Vec<u8> {
    let mut digits = Digits(number);
    let mut parts = with_root("ab");
    parts.strings.push(0xff);
    let texts = [(0, 1), (1, 1), (2, 1), (NONE, 0)];
    for _ in 0..2 {
        let (at, length) = digits.of(&texts);
        parts.definitions.push([at, length, digits.below(4) as u32, digits.below(4) as u32]);
    }
    for _ in 0..2 {
        let (at, length) = digits.of(&texts[..3]);
        parts.items.push([at, length, 5]);
    }
    parts.items.truncate(digits.below(3));
    parts.bytes()
}

const FIELDS: [u32; 16] = [0, 1, 2, 3, 4, 5, 7, 8, 15, 23, 24, 32, 0x8000_0000, NONE - 1, NONE, 9];

/// A node of each kind, two words of which take all values.
fn record(number: u64) -> Vec<u8> {
    let mut digits = Digits(number);
    let tag = crate::stories::TAGS[digits.below(17)];
    let mut parts = with_root("ev+ab\u{e9}");
    let mut node = GLUE;
    node[2] = tag;
    let fields: &[u32] = match tag {
        1 => &[3, 1, 0, 1, 0, 0, 0],
        2 => &[3, 1, 0, 0],
        3 => &[0, 2],
        4 => &[3, 1, 0, 4, 1, 0, 0],
        6 => &[2, 1],
        8 => &[1],
        12 => &[0, 8],
        13 | 14 | 16 => &[3, 1, 0],
        17 => &[3, 1, 4, 1, 0],
        _ => &[3, 1],
    };
    node[3..3 + fields.len()].copy_from_slice(fields);
    if tag == 12 {
        parts.payload = vec![0; 8];
    }
    if tag == 1 {
        parts.index.push([3, 1, 1]);
    }
    let pair = digits.below(45);
    let (first, second) = (0..10).flat_map(|i| (i + 1..10).map(move |j| (i, j))).nth(pair).unwrap();
    node[first] = digits.of(&FIELDS);
    node[second] = digits.of(&FIELDS);
    parts.nodes.push(node);
    parts.children = vec![1];
    parts.nodes[0][7] = 1;
    parts.bytes()
}

/// The smallest image, two header words of which take all values.
fn header(number: u64) -> Vec<u8> {
    const VALUES: [u32; 15] = [0, 1, 2, 3, 17, 18, 21, 22, 87, 88, 89, 128, 140, 141, NONE];
    let mut digits = Digits(number);
    let mut bytes = with_root("").bytes();
    let mut sum = false;
    for _ in 0..2 {
        let word = digits.below(20);
        let value = digits.of(&VALUES);
        sum |= word == 19;
        set_word(&mut bytes, 8 + 4 * word, value);
    }
    if !sum {
        repair(&mut bytes);
    }
    bytes
}

/// A list of one item and one origin, two words of which take all values.
fn list(number: u64) -> Vec<u8> {
    let mut digits = Digits(number);
    let mut words = [0, 36, 1, 1, NONE, NONE, 0, 1, 5, 1, 1];
    for _ in 0..2 {
        let at = digits.below(11);
        words[at] = digits.of(&[0, 1, 2, 3, 4, 8, 16, 28, 35, 36, 37, 0x8000_0000, 0x3333_3333, NONE - 1, NONE, 20]);
    }
    let mut parts = with_root("ab");
    let mut node = GLUE;
    (node[2], node[3], node[4]) = (12, words[0], words[1]);
    parts.nodes.push(node);
    parts.children = vec![1];
    parts.nodes[0][7] = 1;
    parts.payload = words[2..].iter().flat_map(|word| word.to_le_bytes()).collect();
    parts.bytes()
}

/// A string value of up to four bytes.
fn utf8(number: u64) -> Vec<u8> {
    const BYTES: [u8; 25] = [
        0x00, 0x41, 0x7f, 0x80, 0x8f, 0x90, 0x9f, 0xa0, 0xbf, 0xc0, 0xc1, 0xc2, 0xdf, 0xe0, 0xe1, 0xec, 0xed, 0xee,
        0xef, 0xf0, 0xf1, 0xf3, 0xf4, 0xf5, 0xff,
    ];
    let mut digits = Digits(number);
    let text: Vec<u8> = (0..4).filter_map(|_| BYTES.get(digits.below(26)).copied()).collect();
    let mut parts = with_root("");
    let mut node = GLUE;
    (node[2], node[3], node[4]) = (11, 0, text.len() as u32);
    parts.nodes.push(node);
    parts.children = vec![1];
    parts.nodes[0][7] = 1;
    parts.strings = text;
    parts.bytes()
}

/// Each known name, and texts close to it, as a command and as an operator.
fn names(number: u64) -> Vec<u8> {
    let mut digits = Digits(number);
    let name = digits.below(57);
    let name = if name < 26 { COMMANDS[name] } else { OPERATORS[name - 26] };
    let tag = digits.of(&[3, 6]);
    let text = match digits.below(6) {
        0 | 1 => name.to_owned(),
        2 => name[..name.len() - 1].to_owned(),
        3 => format!("{name}s"),
        4 => format!("/{name}"),
        _ => name.chars().rev().collect(),
    };
    let mut parts = with_root(&text);
    let mut node = GLUE;
    (node[2], node[3], node[4]) = (tag, 0, text.len() as u32);
    parts.nodes.push(node);
    parts.children = vec![1];
    parts.nodes[0][7] = 1;
    parts.bytes()
}

/// The smallest image.
pub fn smallest() -> Parts {
    let parts = with_root("");
    debug_assert_eq!(parts.bytes().len(), HEADER + ENTRY_SIZES[0] + ENTRY_SIZES[5]);
    parts
}
