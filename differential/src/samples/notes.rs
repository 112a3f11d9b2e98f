//! Two images of one story that the sleeper's reader cannot tell apart: they differ in what its notes to the technician
//! hold after `tech:`, and in where texts lie.

use crate::parts::{NONE, Parts};

/// A place of a text in strings to come.
type Place<'a> = &'a mut dyn FnMut(&str) -> [u32; 2];

/// Each text where the strings have it already, else at their end: a text may lie in another.
pub fn one() -> Vec<u8> {
    let mut strings: Vec<u8> = vec![];
    let mut place = |text: &str| {
        let found = strings.windows(text.len().max(1)).position(|part| part == text.as_bytes());
        let at = found.unwrap_or(strings.len());
        if found.is_none() {
            strings.extend_from_slice(text.as_bytes());
        }
        [at as u32, text.len() as u32]
    };
    let parts = story(["tech:Good evening.", "tech:"], &mut place);
    Parts { strings, ..parts }.bytes()
}

/// Other notes, and each text by itself behind bytes that are no text's.
pub fn two() -> Vec<u8> {
    let mut strings: Vec<u8> = vec![];
    let mut place = |text: &str| {
        strings.extend_from_slice(b"..");
        let at = strings.len();
        strings.extend_from_slice(text.as_bytes());
        [at as u32, text.len() as u32]
    };
    let parts = story(["tech:", "tech:lead 3 is loose, take the longer one"], &mut place);
    Parts { strings, ..parts }.bytes()
}

/// The story with these notes: beside them tags and a string that come near to one, a list value, a definition, and a
/// container that only its name leads to.
fn story(notes: [&str; 2], place: Place<'_>) -> Parts {
    let mut parts = Parts { ink: 21, ..Parts::default() };
    parts.nodes.push([NONE, NONE, 1, NONE, NONE, 1, 0, 8, 0, 1]);
    add(&mut parts, 0, 7, &place(notes[0]));
    add(&mut parts, 0, 11, &place("Good evening."));
    add(&mut parts, 0, 7, &place("tech"));
    add(&mut parts, 0, 7, &place("Tech:lead 3"));
    add(&mut parts, 0, 7, &place(" tech:lead 3"));
    add(&mut parts, 0, 11, &place("tech:lead 3"));
    let payload = [[1, 1].as_slice(), &place("lamp"), &place("red"), &[3], &place("lamp")].concat();
    add(&mut parts, 0, 12, &[0, 4 * payload.len() as u32]);
    parts.payload = payload.iter().flat_map(|word| word.to_le_bytes()).collect();
    let [path, path_length] = place("night");
    add(&mut parts, 0, 4, &[path, path_length, 9, NONE, NONE, 0, 0]);
    let [name, name_length] = place("night");
    parts.nodes.push([0, NONE, 1, name, name_length, 0, 8, 2, 1, 0]);
    add(&mut parts, 9, 7, &place(notes[1]));
    add(&mut parts, 9, 11, &place("Sleep well."));
    let [entry, entry_length] = place("night");
    parts.named.push([entry, entry_length, 9]);
    let [lamp, lamp_length] = place("lamp");
    parts.definitions.push([lamp, lamp_length, 0, 2]);
    for (item, value) in [("green", 1), ("red", 3)] {
        let [at, length] = place(item);
        parts.items.push([at, length, value]);
    }
    for (path, container) in [("", 0), ("night", 9)] {
        let [at, length] = place(path);
        parts.index.push([at, length, container]);
    }
    parts
}

/// An ordered child, with its first fields.
fn add(parts: &mut Parts, parent: u32, tag: u32, fields: &[u32]) {
    let place = parts.nodes.iter().skip(1).filter(|node| node[0] == parent && node[1] != NONE).count();
    let mut node = [NONE; 10];
    node[..3].copy_from_slice(&[parent, place as u32, tag]);
    node[3..][..fields.len()].copy_from_slice(fields);
    parts.children.push(parts.nodes.len() as u32);
    parts.nodes.push(node);
}
