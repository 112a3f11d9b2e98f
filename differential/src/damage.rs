//! Damaged images: single words, single bits, cuts, section edits, and pairs of faults.

use crate::parts::{ENTRY_SIZES, HEADER, NONE, Parts, repair, set_word, word_at};
use crate::random::Random;

/// The words of an image that mean something, by position: the header's, then those of sections 0 to 6.
pub fn word_positions(bytes: &[u8]) -> Vec<usize> {
    let mut positions: Vec<usize> = (8..84).step_by(4).collect();
    for section in 0..7 {
        let (start, end) = bounds(bytes, section);
        positions.extend((start..end).step_by(4).filter(|at| at + 4 <= bytes.len()));
    }
    positions
}

/// Start and end of a section of a sound image.
pub fn bounds(bytes: &[u8], section: usize) -> (usize, usize) {
    let start = word_at(bytes, 20 + 8 * section) as usize;
    (start, start + word_at(bytes, 24 + 8 * section) as usize * ENTRY_SIZES[section])
}

/// Values worth setting a word to, in an image with these counts.
pub fn values(counts: [usize; 8]) -> Vec<u32> {
    let mut values = vec![
        0,
        1,
        2,
        3,
        4,
        5,
        6,
        8,
        12,
        13,
        15,
        16,
        17,
        18,
        19,
        20,
        21,
        22,
        23,
        24,
        31,
        32,
        88,
        0x7fff_ffff,
        0x8000_0000,
        NONE - 1,
        NONE,
    ];
    for count in counts {
        values.extend([count as u32, count as u32 + 1, (count as u32).wrapping_sub(1)]);
    }
    values.sort_unstable();
    values.dedup();
    values
}

pub fn with_word(bytes: &[u8], at: usize, word: u32) -> Vec<u8> {
    let mut damaged = bytes.to_vec();
    set_word(&mut damaged, at, word);
    repair(&mut damaged);
    damaged
}

/// How many single faults an image has: words by values, cuts, bits.
pub fn singly_count(bytes: &[u8], parts: &Parts) -> u64 {
    let words = word_positions(bytes).len() * values(parts.counts()).len();
    let cuts = bytes.len() + (bytes.len() - HEADER);
    (1 + words + cuts + 16 * bytes.len()) as u64
}

/// One random fault, or two, of any sort.
pub fn random(parts: &Parts, random: &mut Random) -> (&'static str, Vec<u8>) {
    let bytes = parts.bytes();
    match random.below(12) {
        0 => ("bit", bit(&bytes, random, false)),
        1 => ("bit, checksum right", bit(&bytes, random, true)),
        2 => ("cut", cut(&bytes, random)),
        3 | 4 => ("word", any_word(&bytes, parts, random)),
        5 => ("strings byte", strings_byte(&bytes, random)),
        6 => ("section edit", edited(parts, random)),
        7 | 8 => ("pair in one entry", pair_in_entry(&bytes, parts, random)),
        9 => ("pair of words", {
            let once = any_word(&bytes, parts, random);
            any_word(&once, parts, random)
        }),
        _ => ("pair in the tree", tree_pair(parts, random)),
    }
}

fn bit(bytes: &[u8], random: &mut Random, right: bool) -> Vec<u8> {
    let mut damaged = bytes.to_vec();
    let at = random.below(bytes.len());
    damaged[at] ^= 1 << random.below(8);
    if right {
        repair(&mut damaged);
    }
    damaged
}

/// Cut, with the total length set right or not.
fn cut(bytes: &[u8], random: &mut Random) -> Vec<u8> {
    let mut damaged = bytes[..random.below(bytes.len())].to_vec();
    if damaged.len() >= HEADER && random.once_in(2) {
        let total = damaged.len() as u32;
        set_word(&mut damaged, 16, total);
        repair(&mut damaged);
    }
    damaged
}

fn any_word(bytes: &[u8], parts: &Parts, random: &mut Random) -> Vec<u8> {
    let at = *random.pick(&word_positions_or_header(bytes));
    with_word(bytes, at, *random.pick(&values(parts.counts())))
}

/// A damaged header may point anywhere; then only the header's own words are taken.
fn word_positions_or_header(bytes: &[u8]) -> Vec<usize> {
    let sound = (0..8).all(|section| {
        let (start, end) = bounds(bytes, section);
        start >= HEADER && start <= end && end <= bytes.len()
    });
    if sound { word_positions(bytes) } else { (8..84).step_by(4).collect() }
}

fn strings_byte(bytes: &[u8], random: &mut Random) -> Vec<u8> {
    let (start, end) = bounds(bytes, 7);
    let mut damaged = bytes.to_vec();
    if start < end {
        let at = start + random.below(end - start);
        damaged[at] =
            *random.pick(&[0x00, b'.', b'0', b'a', 0x7f, 0x80, 0xbf, 0xc0, 0xc3, 0xe0, 0xed, 0xf0, 0xf4, 0xff]);
        repair(&mut damaged);
    }
    damaged
}

/// Two words of one entry of sections 0 to 5.
fn pair_in_entry(bytes: &[u8], parts: &Parts, random: &mut Random) -> Vec<u8> {
    let counts = parts.counts();
    let sections: Vec<usize> = [0, 0, 2, 2, 3, 4, 5, 5].into_iter().filter(|section| counts[*section] > 0).collect();
    let section = *random.pick(&sections);
    let entry = bounds(bytes, section).0 + random.below(counts[section]) * ENTRY_SIZES[section];
    let words = ENTRY_SIZES[section] / 4;
    let mut damaged = bytes.to_vec();
    for _ in 0..2 {
        let value = *random.pick(&values(counts));
        set_word(&mut damaged, entry + 4 * random.below(words), value);
    }
    repair(&mut damaged);
    damaged
}

fn edit<T: Clone>(entries: &mut Vec<T>, random: &mut Random) {
    if entries.is_empty() {
        return;
    }
    let (at, other) = (random.below(entries.len()), random.below(entries.len()));
    match random.below(4) {
        0 => drop(entries.remove(at)),
        1 => entries.insert(other, entries[at].clone()),
        _ => entries.swap(at, other),
    }
}

/// An entry of some section taken out, doubled or exchanged, under a right header.
fn edited(parts: &Parts, random: &mut Random) -> Vec<u8> {
    let mut parts = parts.clone();
    match random.below(8) {
        0 => edit(&mut parts.index, random),
        1 => edit(&mut parts.strings, random),
        _ => edit_draft(&mut parts, random),
    }
    parts.bytes()
}

/// The same, for a section that a draft has, strings aside.
pub fn edit_draft(parts: &mut Parts, random: &mut Random) {
    match random.below(6) {
        0 => edit(&mut parts.nodes, random),
        1 => edit(&mut parts.children, random),
        2 => edit(&mut parts.named, random),
        3 => edit(&mut parts.definitions, random),
        4 => edit(&mut parts.items, random),
        _ => edit(&mut parts.payload, random),
    }
}

/// Up to three faults among definitions and their items: words, and entries taken out, doubled or exchanged.
pub fn lists(parts: &Parts, random: &mut Random) -> Vec<u8> {
    let mut parts = parts.clone();
    for _ in 0..1 + random.below(3) {
        let value = *random.pick(&values(parts.counts()));
        match random.below(4) {
            0 => edit(&mut parts.definitions, random),
            1 => edit(&mut parts.items, random),
            2 if !parts.definitions.is_empty() => pick_mut(&mut parts.definitions, random)[random.below(4)] = value,
            _ if !parts.items.is_empty() => pick_mut(&mut parts.items, random)[random.below(3)] = value,
            _ => {}
        }
    }
    parts.bytes()
}

/// Two faults among the entries of containers, which the stack's order tells apart.
fn tree_pair(parts: &Parts, random: &mut Random) -> Vec<u8> {
    let mut parts = parts.clone();
    tree_fault(&mut parts, random);
    tree_fault(&mut parts, random);
    parts.bytes()
}

/// One fault among the entries of containers.
pub fn tree_fault(parts: &mut Parts, random: &mut Random) {
    let nodes = parts.nodes.len() as u32;
    let inside = random.below(parts.nodes.len()) as u32;
    let number = *random.pick(&[0, inside, nodes, NONE]);
    match random.below(7) {
        0 if !parts.children.is_empty() => *pick_mut(&mut parts.children, random) = number,
        1 => pick_mut(&mut parts.nodes, random)[1] = *random.pick(&[0, 1, 2, NONE]),
        2 if nodes > 1 => pick_mut(&mut parts.nodes[1..], random)[0] = number,
        3 | 4 if !parts.named.is_empty() => pick_mut(&mut parts.named, random)[2] = number,
        5 if !parts.named.is_empty() => {
            pick_mut(&mut parts.named, random)[random.below(2)] = *random.pick(&[0, 1, NONE])
        }
        _ if parts.named.len() > 1 => {
            let at = random.below(parts.named.len() - 1);
            let (first, second) = (parts.named[at], parts.named[at + 1]);
            parts.named[at][..2].copy_from_slice(&second[..2]);
            parts.named[at + 1][..2].copy_from_slice(&first[..2]);
        }
        _ => {}
    }
}

fn pick_mut<'a, T>(from: &'a mut [T], random: &mut Random) -> &'a mut T {
    &mut from[random.below(from.len())]
}
