//! The images of samples/: the smallest, a guide, one story with notes twice, and damaged ones with the row that each is
//! refused with.

mod notes;

use crate::guide::guide;
use crate::parts::{NONE, Parts, repair, set_word, word_at};
use crate::path_index;
use crate::small;
use reference::Written;
use std::path::Path;

/// As the published writer writes it.
fn written(parts: &Parts) -> Vec<u8> {
    match reference::write(21, &parts.draft()) {
        Written::Image(image) => image,
        other => panic!("a sound draft: {other:?}"),
    }
}

fn with(image: &[u8], change: impl FnOnce(&mut Vec<u8>)) -> Vec<u8> {
    let mut bytes = image.to_vec();
    change(&mut bytes);
    repair(&mut bytes);
    bytes
}

fn with_word(image: &[u8], at: usize, word: u32) -> Vec<u8> {
    with(image, |bytes| set_word(bytes, at, word))
}

/// Where word k of the first node with a tag lies.
fn field(image: &[u8], tag: u32, k: usize) -> usize {
    let nodes = word_at(image, 24) as usize;
    let node = (0..nodes).find(|node| word_at(image, 96 + 40 * node) == tag).expect("a node of the tag");
    88 + 40 * node + 4 * k
}

fn start(image: &[u8], section: usize) -> usize {
    word_at(image, 20 + 8 * section) as usize
}

/// Two words change places.
fn swapped(image: &[u8], a: usize, b: usize) -> Vec<u8> {
    let (first, second) = (word_at(image, a), word_at(image, b));
    with(image, |bytes| {
        set_word(bytes, a, second);
        set_word(bytes, b, first);
    })
}

/// Exactly 65,536 bytes: a root of as many glues as there is room for, and unused strings.
fn largest() -> Vec<u8> {
    let mut parts = small::smallest();
    let glues = (65_536 - 140) / 44;
    parts.nodes[0][7] = glues;
    parts.children = (1..=glues).collect();
    for place in 0..glues {
        parts.nodes.push([0, place, 5, NONE, NONE, NONE, NONE, NONE, NONE, NONE]);
    }
    parts.strings = vec![b' '; (65_536 - 140 - 44 * glues) as usize];
    parts.bytes()
}

/// Exactly 65,536 bytes: one node, and children in all the rest, so that a load needs as many work words as it can.
fn most_words() -> Vec<u8> {
    let mut parts = small::smallest();
    let children = (65_536 - 128) / 4;
    parts.nodes[0][7] = children;
    parts.children = vec![0; children as usize];
    parts.index = vec![];
    parts.bytes()
}

/// Root and two containers that are each other's parent and child.
fn circle() -> Vec<u8> {
    let mut parts = small::smallest();
    parts.nodes.push([2, 0, 1, NONE, NONE, 0, 0, 1, 0, 0]);
    parts.nodes.push([1, 0, 1, NONE, NONE, 0, 1, 1, 0, 0]);
    parts.children = vec![2, 1];
    parts.index = vec![[0, 0, 0]; 3];
    parts.bytes()
}

/// Three glues and, in place 3, a nameless container that is filed as `.3`.
fn dotted() -> Vec<u8> {
    let mut parts = small::smallest();
    parts.nodes[0][7] = 4;
    parts.children = vec![1, 2, 3, 4];
    for place in 0..3 {
        parts.nodes.push([0, place, 5, NONE, NONE, NONE, NONE, NONE, NONE, NONE]);
    }
    parts.nodes.push([0, 3, 1, NONE, NONE, 0, 4, 0, 0, 0]);
    parts.index.push([0, 2, 4]);
    parts.strings = b".3".to_vec();
    parts.bytes()
}

/// A named child without a name of its own and without a place, filed as `4294967295`.
fn placeless() -> Vec<u8> {
    let mut parts = small::smallest();
    parts.nodes[0][9] = 1;
    parts.nodes.push([0, NONE, 1, NONE, NONE, 0, 0, 0, 1, 0]);
    parts.named = vec![[10, 1, 1]];
    parts.index.push([0, 10, 1]);
    parts.strings = b"4294967295a".to_vec();
    parts.bytes()
}

/// Name, bytes, the row and what is wrong.
fn damaged(image: &[u8]) -> Vec<(&'static str, Vec<u8>, u32, &'static str)> {
    let smallest = small::smallest();
    let two = Parts { index: vec![[0, 0, 0]; 2], ..smallest };
    let turned = {
        let mut bytes = image.to_vec();
        *bytes.last_mut().expect("a byte") ^= 1;
        bytes
    };
    let (items, index, strings) = (start(image, 4), start(image, 5), start(image, 7));
    vec![
        ("cut-header", image[..87].to_vec(), 1, "87 bytes"),
        ("version", with_word(image, 8, 3), 2, "format version 3"),
        ("ink-version", with_word(image, 12, 17), 3, "ink version 17"),
        ("cut", image[..image.len() - 1].to_vec(), 4, "the last byte is missing"),
        ("sections", with_word(image, 20, 89), 5, "the first section's offset is 89"),
        ("bit", turned, 6, "one bit of the last byte turned"),
        ("root", with_word(image, 96, 5), 8, "the root is a glue"),
        ("choice-target", with_word(image, field(image, 2, 5), NONE), 9, "a choice without a target"),
        ("text", with(image, |bytes| bytes[strings] = 0xff), 10, "the first byte of the strings is 255"),
        ("children-start", with_word(image, 88 + 24, 1), 11, "the root's children start at 1"),
        ("tag", with_word(image, field(image, 5, 2), 15), 12, "a glue's tag is 15"),
        ("index-count", two.bytes(), 13, "the smallest image with two index entries"),
        ("most-words", most_words(), 13, "one node and 16,352 children: the most work words that an image can need"),
        ("place", with_word(image, field(image, 3, 1), 7), 14, "the first command says place 7"),
        ("circle", circle(), 15, "nodes 1 and 2 are each other's parent and child"),
        ("index-order", swapped(image, index + 20, index + 32), 16, "two index entries have each other's target"),
        ("dotted", dotted(), 16, "a container in place 3 is filed as `.3`"),
        ("placeless", placeless(), 16, "a container with neither name nor place is filed as `4294967295`"),
        ("item-order", swapped(image, items, items + 12), 17, "two items have each other's text start"),
    ]
}

fn put(folder: &Path, name: &str, bytes: &[u8], answer: &str, what: &str, failed: &mut u32) {
    let row = path_index::row(bytes);
    let expected =
        if row == 0 { format!("ok {} {}", word_at(bytes, 12), word_at(bytes, 24)) } else { format!("no {row}") };
    let right = expected == answer && std::fs::write(folder.join(format!("{name}.image")), bytes).is_ok();
    *failed += u32::from(!right);
    println!("| `{name}.image` | {} | `{expected}` | {what} |", bytes.len());
}

/// Writes the samples into a folder and prints their table. True if a sample is not what it should be.
pub fn run(folder: &str) -> bool {
    let folder = Path::new(folder);
    let (long, short) = (written(&guide(11)), written(&guide(1)));
    let mut failed = 0;
    let nodes = |image: &[u8]| format!("ok 21 {}", word_at(image, 24));
    put(folder, "smallest", &small::smallest().bytes(), "ok 21 1", "the root alone", &mut failed);
    put(folder, "guide", &long, &nodes(&long), "a hook-up guide of eleven steps, every kind of node", &mut failed);
    put(folder, "step", &short, &nodes(&short), "the same with the first step alone", &mut failed);
    let largest = largest();
    put(folder, "largest", &largest, "ok 21 1487", "as long as is read: a root of 1,486 glues", &mut failed);
    put(folder, "note-one", &notes::one(), "ok 21 12", "a short story with two notes to the technician", &mut failed);
    put(folder, "note-two", &notes::two(), "ok 21 12", "the same with other notes, and texts elsewhere", &mut failed);
    for (name, bytes, row, what) in damaged(&short) {
        put(folder, name, &bytes, &format!("no {row}"), what, &mut failed);
    }
    println!("{failed} failed");
    failed > 0
}
