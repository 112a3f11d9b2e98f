//! One word of a sound image is set to another value: the place that is found is that word, or one that speaks of it.

mod common;

use common::repair;
use inspect::library;
use inspect::rules::first_broken;
use inspect::rules::sections::{Section, word_at};
use std::path::Path;

fn sample(name: &str) -> Vec<u8> {
    let file = Path::new(env!("CARGO_MANIFEST_DIR")).join("../../samples").join(name);
    std::fs::read(file).expect("a sample")
}

/// The image with a word, its checksum set right.
fn with_word(image: &[u8], at: usize, word: u32) -> Vec<u8> {
    let mut bytes = image.to_vec();
    bytes[at..at + 4].copy_from_slice(&word.to_le_bytes());
    repair(&mut bytes);
    bytes
}

/// Rules that compare two words; the place is at one of them, and the fault may be the other.
const OF_TWO: [&str; 12] = [
    "child's parent and place",
    "named child's parent",
    "container",
    "entries' start",
    "fit of a path",
    "items left over",
    "items' start",
    "left over",
    "name or place",
    "order of items",
    "order of named entries",
    "order of the index",
];

/// The words of sections 0 to 5: section, start of its entry, byte of the word.
fn words(image: &[u8]) -> Vec<(Section, usize, usize)> {
    let mut words = vec![];
    for section in &Section::ALL[..6] {
        let (start, size) = (word_at(image, section.offset_at()) as usize, section.entry_size());
        for entry in 0..word_at(image, section.count_at()) as usize {
            let at = start + entry * size;
            words.extend((at..at + size).step_by(4).map(|byte| (*section, at, byte)));
        }
    }
    words
}

#[test]
fn a_damaged_word_is_found() {
    let image = sample("step.image");
    let (mut found, mut other) = (0, 0);
    for (section, entry, at) in words(&image) {
        for value in [0, 1, 3, 15, 1000, u32::MAX] {
            let bytes = with_word(&image, at, value);
            let number = library::load(&bytes).err().unwrap_or(0);
            let broken = first_broken(&bytes);
            assert_eq!(broken.as_ref().map_or(0, |broken| broken.number), number);
            let Some(broken) = broken else { continue };
            // a text is named by the first of its two words
            if [at, at - 4].contains(&broken.place.byte) {
                found += 1;
                continue;
            }
            other += 1;
            // another tag gives the node's words another meaning
            let same_node = section == Section::Nodes && (entry..entry + 40).contains(&broken.place.byte);
            assert!(same_node || OF_TWO.contains(&broken.rule), "byte {at} set to {value}: {broken:?}");
        }
    }
    assert!(found > 3 * other, "{found} at the word, {other} elsewhere");
}

#[test]
fn every_cut_and_bit_has_the_proved_number() {
    let image = sample("step.image");
    for length in 0..image.len() {
        let bytes = &image[..length];
        assert_eq!(first_broken(bytes).map(|broken| broken.number), library::load(bytes).err());
    }
    for bit in (0..8 * image.len()).step_by(7) {
        let mut bytes = image.clone();
        bytes[bit / 8] ^= 1 << (bit % 8);
        assert_eq!(first_broken(&bytes).map(|broken| broken.number), library::load(&bytes).err());
    }
}
