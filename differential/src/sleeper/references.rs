//! The texts of an image by the words that name them, and the strings laid anew under these words.

use crate::names::kind;
use crate::parts::{NONE, Parts, set_word, word_at};
use crate::random::Random;
use crate::texts::{Laying, NO_TEXTS, Strings};
use std::cmp::Reverse;
use std::ops::Range;

/// Where the two words stand.
#[derive(Clone, Copy, Debug, PartialEq)]
pub enum At {
    /// Which node, and at which of its words.
    Node(usize, usize),
    /// Of a list value: at which byte of the payload.
    Payload(usize),
    Named(usize),
    Definition(usize),
    Item(usize),
    Index(usize),
}

/// A text that is there, and where it is named.
#[derive(Clone, Debug, PartialEq)]
pub struct Text {
    pub at: At,
    pub text: String,
}

/// A node's words begin with parent, place and tag; these of the fields that follow name texts.
fn fields(tag: u32) -> &'static [usize] {
    match tag {
        kind::CONTAINER | kind::CHOICE | kind::COMMAND | kind::OPERATOR | kind::TAG | kind::STRING => &[3],
        kind::DIVERT_TARGET | kind::POINTER | kind::ASSIGNMENT => &[3],
        kind::DIVERT => &[3, 6],
        kind::REFERENCE => &[3, 5],
        _ => &[],
    }
}

/// The places of a list value's texts in the payload: of each item origin and name, then of each origin.
fn of_list(payload: &[u8], start: usize) -> impl Iterator<Item = At> {
    let [items, origins] = [start, start + 4].map(|at| word_at(payload, at) as usize);
    let first = start + 8;
    let of_items = (0..items).flat_map(move |item| [first + 20 * item, first + 20 * item + 8]);
    of_items.chain((0..origins).map(move |origin| first + 20 * items + 8 * origin)).map(At::Payload)
}

fn places(parts: &Parts) -> Vec<At> {
    let mut places = vec![];
    for (number, node) in parts.nodes.iter().enumerate() {
        places.extend(fields(node[2]).iter().map(|word| At::Node(number, *word)));
        if node[2] == kind::LIST {
            places.extend(of_list(&parts.payload, node[3] as usize));
        }
    }
    places.extend((0..parts.named.len()).map(At::Named));
    places.extend((0..parts.definitions.len()).map(At::Definition));
    places.extend((0..parts.items.len()).map(At::Item));
    places.extend((0..parts.index.len()).map(At::Index));
    places
}

/// The offset and the length that stand there.
pub fn words(parts: &Parts, at: At) -> (u32, u32) {
    match at {
        At::Node(node, word) => (parts.nodes[node][word], parts.nodes[node][word + 1]),
        At::Payload(byte) => (word_at(&parts.payload, byte), word_at(&parts.payload, byte + 4)),
        At::Named(entry) => (parts.named[entry][0], parts.named[entry][1]),
        At::Definition(entry) => (parts.definitions[entry][0], parts.definitions[entry][1]),
        At::Item(entry) => (parts.items[entry][0], parts.items[entry][1]),
        At::Index(entry) => (parts.index[entry][0], parts.index[entry][1]),
    }
}

pub fn set_words(parts: &mut Parts, at: At, (offset, length): (u32, u32)) {
    let words = match at {
        At::Node(node, word) => &mut parts.nodes[node][word..],
        At::Payload(byte) => {
            set_word(&mut parts.payload, byte, offset);
            return set_word(&mut parts.payload, byte + 4, length);
        }
        At::Named(entry) => &mut parts.named[entry][..],
        At::Definition(entry) => &mut parts.definitions[entry][..],
        At::Item(entry) => &mut parts.items[entry][..],
        At::Index(entry) => &mut parts.index[entry][..],
    };
    words[..2].copy_from_slice(&[offset, length]);
}

/// Where in the strings a text lies.
pub fn range(parts: &Parts, at: At) -> Range<usize> {
    let (offset, length) = words(parts, at);
    offset as usize..offset as usize + length as usize
}

/// All texts of an accepted image.
pub fn texts(parts: &Parts) -> Vec<Text> {
    let present = places(parts).into_iter().filter(|at| words(parts, *at).0 != NONE);
    let text = |at| core::str::from_utf8(&parts.strings[range(parts, at)]).expect("a text").to_owned();
    present.map(|at| Text { at, text: text(at) }).collect()
}

/// Lays the strings anew and names each text where it now lies: in another order, shared or not, inside others, with
/// bytes between, before and behind that are no text's.
pub fn lay(parts: &mut Parts, texts: &[Text], random: &mut Random) {
    let laying = *random.pick(&[Laying::Anew, Laying::Shared, Laying::Overlapping, Laying::Scattered]);
    let mut order: Vec<&Text> = texts.iter().collect();
    random.shuffle(&mut order);
    if random.once_in(2) {
        order.sort_by_key(|text| Reverse(text.text.len()));
    }
    let mut strings = Strings::new(laying);
    strings.bytes = unused(random);
    for text in order {
        let place = strings.put(&text.text, random);
        set_words(parts, text.at, place);
    }
    strings.bytes.extend(unused(random));
    parts.strings = strings.bytes;
}

/// A few bytes, or none.
fn unused(random: &mut Random) -> Vec<u8> {
    match random.below(6) {
        0 => b"tech:".to_vec(),
        1 => (0..random.below(40)).map(|_| random.next() as u8).collect(),
        2 => random.pick(&NO_TEXTS).to_vec(),
        _ => vec![],
    }
}
