//! A sample of the published Rust's answers, as a file that needs no Rust to read. A row is the published one with the
//! rule of the path index added (path_index.rs).
//!
//! The file is little-endian words. First the word 1380272467 (`SIER`), 1, and the number of records. Each record is
//! its kind, the number of words that follow, and these; bytes are stored in words, the last filled up with zeros.
//! `number` is 0, or 18 where a query finds nothing (the answer's words are then 0). Some records are wrong on purpose
//! (wrong.rs).
//!
//! | kind | words |
//! |---|---|
//! | 1 image | row, length in bytes, the bytes; the records after it, up to the next image, speak of it |
//! | 2 word | row, position in bytes, word: the image with that word, its checksum set right |
//! | 3 bit | row, position in bits: the image with that bit turned |
//! | 4 cut | row, length in bytes: the image's first bytes |
//! | 10 node view | node, number, then the ten words of `story_image_node` |
//! | 11 child | node, index, number, node |
//! | 12 named child | node, index, number, name, length, node |
//! | 13 find named child | node, number, node, name's length, name |
//! | 14 list entry | list's place and length in the payload, index, number, origin, length, name, length, value |
//! | 15 list origin | list's place and length in the payload, index, number, origin, length |
//! | 16 definition | index, number, name, length, items |
//! | 17 definition item | index, item, number, name, length, value |
//! | 18 list item | number, definition, item among all, value, name's length, name |
//! | 19 walk | origin, relative, number, node, number of components, three words each, names' length, names |
//! | 20 draft | ink version, number, lengths of nodes, children, named, definitions, items (in words), payload, strings, image (in bytes), then all of these; no image where the number is not 0; the number 21 says that the Rust refuses, and that only refusal is compared |
//! | 21 targets | ink version, number, lengths of nodes, children, named, definitions, items (in words), payload, strings (in bytes), of the paths' entries, components (in words) and names (in bytes), then all of these, and the nodes after the call, unchanged where the number is not 0 |

mod targets;

use crate::damage;
use crate::drafts;
use crate::library::components;
use crate::parts::{NONE, Parts, word_at};
use crate::path_index;
use crate::random::Random;
use crate::recorded::Counts;
use crate::rows::writer_row;
use crate::small::{self, FAMILIES};
use crate::stories::{Shape, Story};
use crate::texts;
use crate::wrong;
use reference::{Draft, Image, Kind, NodeView, Step, Written};
use std::collections::HashMap;

/// Whole stories; of each so many single words, bits and cuts, and walks.
const STORIES: usize = 50;
const WORDS: usize = 60;
const BITS: usize = 4;
const WALKS: usize = 8;
/// Up to how many of each reason small images and pairs of faults are added, and how many accepted ones.
const OF_REASON: u64 = 12;
const ACCEPTED: u64 = 20;
/// Drafts of each number, and the size of the largest in words.
const DRAFTS: u64 = 20;
const DRAFT_SIZE: usize = 180;

#[derive(Default)]
struct Recorder {
    words: Vec<u32>,
    records: u32,
    rows: [u64; 24],
    reasons: HashMap<String, u64>,
    /// What is met in the indexes of images that the published Rust accepts.
    index: [u64; path_index::CASES.len()],
    targets: targets::Met,
}

pub fn run(file: &str) -> bool {
    let mut recorder = Recorder { words: vec![0x5245_4953, 1, 0], ..Recorder::default() };
    let mut random = Random::new(7);
    recorder.stories(&mut random);
    recorder.rare(&mut random);
    recorder.drafts(&mut random);
    recorder.targets(&mut random);
    recorder.words[2] = recorder.records;
    let counts = Counts::of(&recorder.words);
    counts.print();
    let (words, wrong) = wrong::among(&recorder.words);
    let bytes: Vec<u8> = words.iter().flat_map(|word| word.to_le_bytes()).collect();
    let (right, reasons) = (recorder.records, recorder.reasons.len());
    println!("{right} right records, {wrong} wrong ones, {reasons} reasons, {} bytes in {file}", bytes.len());
    let mut failures = counts.missing();
    failures.extend(recorder.missing_of_index());
    failures.extend(recorder.targets.missing());
    failures.extend(std::fs::write(file, bytes).err().map(|error| format!("{file}: {error}")));
    for failure in &failures {
        println!("failed: {failure}");
    }
    println!("{} passed, {} failed", recorder.records, failures.len());
    !failures.is_empty()
}

fn packed(bytes: &[u8]) -> impl Iterator<Item = u32> {
    bytes.chunks(4).map(|part| {
        let mut word = [0; 4];
        word[..part.len()].copy_from_slice(part);
        u32::from_le_bytes(word)
    })
}

/// The words of `story_image_node_view`.
pub fn node_words(view: &NodeView) -> [u32; 10] {
    let absent = (NONE, NONE);
    let (mut text, mut variable, mut target, mut value, mut flags) = (absent, absent, None, 0, 0);
    let kind = match view.kind {
        Kind::Container { flags: word, name } => {
            (text, flags) = (name.unwrap_or(absent), word as u32);
            1
        }
        Kind::Choice { flags: word, target: node } => {
            (target, flags) = (node, word as u32);
            2
        }
        Kind::Command(number) => {
            value = number;
            3
        }
        Kind::Divert { path, target: node, variable: name, arguments, conditional, external, pushes, push_type } => {
            (text, variable) = (path.unwrap_or(absent), name.unwrap_or(absent));
            (target, value) = (node, arguments);
            flags = u32::from(conditional) + 2 * u32::from(external) + 4 * u32::from(pushes) + 8 * push_type;
            4
        }
        Kind::Glue => 5,
        Kind::Operator(number) => {
            value = number;
            6
        }
        Kind::Tag(place) => {
            text = place;
            7
        }
        Kind::Bool(truth) => {
            value = u32::from(truth);
            8
        }
        Kind::Int(number) => {
            value = number as u32;
            9
        }
        Kind::Float(bits) => {
            value = bits;
            10
        }
        Kind::String(place) => {
            text = place;
            11
        }
        Kind::List(place) => {
            text = place;
            12
        }
        Kind::DivertTarget(place) => {
            text = place;
            13
        }
        Kind::Pointer { name, context } => {
            (text, value) = (name, context as u32);
            14
        }
        Kind::Assignment { name, global, new_declaration } => {
            (text, flags) = (name, u32::from(global) + 2 * u32::from(new_declaration));
            16
        }
        Kind::Reference { name, target: node } => {
            (text, target) = (name, node);
            17
        }
        Kind::Void => 18,
    };
    let word = |optional: Option<u32>| optional.unwrap_or(NONE);
    [word(view.parent), word(view.place), kind, text.0, text.1, variable.0, variable.1, word(target), value, flags]
}

impl Recorder {
    fn put(&mut self, kind: u32, words: impl IntoIterator<Item = u32>) {
        let start = self.words.len();
        self.words.extend([kind, 0]);
        self.words.extend(words);
        self.words[start + 1] = (self.words.len() - start - 2) as u32;
        self.records += 1;
    }

    /// A query's answer of N words.
    fn answer<const N: usize>(&mut self, kind: u32, asked: &[u32], answer: Option<[u32; N]>) {
        let number = if answer.is_some() { 0 } else { 18 };
        let words = asked.iter().copied().chain([number]).chain(answer.unwrap_or([0; N]));
        self.put(kind, words);
    }

    /// The row of the published Rust with the rule of the path index added.
    fn row(&mut self, bytes: &[u8]) -> u32 {
        let row = path_index::row(bytes);
        match reference::load(bytes) {
            Ok(_) => {
                self.index.iter_mut().zip(path_index::met(bytes)).for_each(|(count, met)| *count += u64::from(met))
            }
            Err(reason) => *self.reasons.entry(reason).or_default() += 1,
        }
        self.rows[row as usize] += 1;
        row
    }

    fn image(&mut self, bytes: &[u8]) -> u32 {
        let row = self.row(bytes);
        self.put(1, [row, bytes.len() as u32].into_iter().chain(packed(bytes)));
        row
    }

    /// Whole stories with their queries, and single faults in them.
    fn stories(&mut self, random: &mut Random) {
        for turn in 0..STORIES {
            let (nodes, containers) = (1 + random.below(20), 1 + random.below(6));
            let shape = Shape { nodes, containers, ..Shape::random(random) };
            let parts = if turn == 0 { small::smallest() } else { Story::random(shape, random).parts(random) };
            let bytes = parts.bytes();
            if self.image(&bytes) == 0 {
                let image = reference::load(&bytes).expect("an accepted image");
                self.queries(&image, &bytes, random);
            }
            self.faults(&parts, &bytes, random);
        }
    }

    fn faults(&mut self, parts: &Parts, bytes: &[u8], random: &mut Random) {
        let (positions, values) = (damage::word_positions(bytes), damage::values(parts.counts()));
        for _ in 0..WORDS {
            let (at, value) = (*random.pick(&positions), *random.pick(&values));
            let row = self.row(&damage::with_word(bytes, at, value));
            self.put(2, [row, at as u32, value]);
        }
        for _ in 0..BITS {
            let bit = random.below(8 * bytes.len());
            let mut turned = bytes.to_vec();
            turned[bit / 8] ^= 1 << (bit % 8);
            let row = self.row(&turned);
            self.put(3, [row, bit as u32]);
            let length = random.below(bytes.len());
            let row = self.row(&bytes[..length]);
            self.put(4, [row, length as u32]);
        }
    }

    fn queries(&mut self, image: &Image<'_>, bytes: &[u8], random: &mut Random) {
        let count = image.node_count() as u32;
        let strings = word_at(bytes, 76) as usize;
        let text = |(at, length): (u32, u32)| &bytes[strings + at as usize..][..length as usize];
        for node in (0..count).chain([NONE]) {
            let view = image.node_view(node);
            self.answer(10, &[node], view.as_ref().map(node_words));
            if let Some(NodeView { kind: Kind::List(list), .. }) = view {
                self.list(image, node, list, bytes);
            }
            if image.child_count(node).is_none() && node > 3 {
                continue;
            }
            for index in 0..image.child_count(node).unwrap_or(0) as u32 + 1 {
                self.answer(11, &[node, index], image.child_at(node, index as usize).map(|node| [node]));
            }
            for index in 0..image.named_child_count(node).unwrap_or(0) as u32 + 1 {
                let entry = image.named_child_at(node, index as usize);
                let name =
                    entry.as_ref().map_or_else(|| texts::name(random).into_bytes(), |entry| text(entry.name).to_vec());
                self.answer(12, &[node, index], entry.map(|entry| [entry.name.0, entry.name.1, entry.node]));
                let found = image.find_named_child(node, core::str::from_utf8(&name).expect("a name"));
                self.find(13, &[node, if found.is_some() { 0 } else { 18 }, found.unwrap_or(0)], &name);
            }
        }
        self.definitions(image, bytes, random);
        for _ in 0..WALKS {
            self.walk(image, bytes, random);
        }
    }

    fn find(&mut self, kind: u32, words: &[u32], name: &[u8]) {
        self.put(kind, words.iter().copied().chain([name.len() as u32]).chain(packed(name)));
    }

    /// The Rust answers with texts; their places are the payload's words.
    fn list(&mut self, image: &Image<'_>, node: u32, list: (u32, u32), bytes: &[u8]) {
        let entries = image.list_entries(node).expect("a list");
        let (payload, strings) = (word_at(bytes, 68) as usize + list.0 as usize, word_at(bytes, 76) as usize);
        let text = |at: u32, length: u32| String::from_utf8_lossy(&bytes[strings + at as usize..][..length as usize]);
        for index in 0..entries.items.len() as u32 + 1 {
            let at = payload + 8 + index as usize * 20;
            let words = entries.items.get(index as usize).map(|entry| {
                let words: [u32; 5] = std::array::from_fn(|k| word_at(bytes, at + 4 * k));
                assert_eq!(entry.name, text(words[2], words[3]));
                assert_eq!(entry.value as u32, words[4]);
                assert!(entry.origin.as_ref().map_or(words[0] == NONE, |origin| *origin == text(words[0], words[1])));
                words
            });
            self.answer(14, &[list.0, list.1, index], words);
        }
        for index in 0..entries.origins.len() as u32 + 1 {
            let at = payload + 8 + entries.items.len() * 20 + index as usize * 8;
            let words = entries.origins.get(index as usize).map(|origin| {
                let words = [word_at(bytes, at), word_at(bytes, at + 4)];
                assert_eq!(*origin, text(words[0], words[1]));
                words
            });
            self.answer(15, &[list.0, list.1, index], words);
        }
    }

    fn definitions(&mut self, image: &Image<'_>, bytes: &[u8], random: &mut Random) {
        let strings = word_at(bytes, 76) as usize;
        let text = |(at, length): (u32, u32)| {
            core::str::from_utf8(&bytes[strings + at as usize..][..length as usize]).expect("a text").to_owned()
        };
        let mut items = vec![];
        let mut names = vec![" ".to_owned(), texts::name(random)];
        for index in 0..image.definition_count() as u32 + 1 {
            let definition = image.definition(index as usize);
            self.answer(16, &[index], definition.map(|(name, items)| [name.0, name.1, items as u32]));
            for item in 0..definition.map_or(0, |(_, items)| items as u32) + 1 {
                let found = image.definition_item(index as usize, item as usize);
                self.answer(17, &[index, item], found.map(|(name, value)| [name.0, name.1, value as u32]));
                if let (Some((origin, _)), Some((name, value))) = (definition, found) {
                    names.extend([text(name), format!("{}.{}", text(origin), text(name))]);
                    items.push((index, text(origin), text(name), value));
                }
            }
        }
        for name in names {
            let found = image.list_item(&name);
            let place = found.and_then(|(origin, item, value)| {
                let at = items.iter().position(|known| known.1 == origin && known.2 == item && known.3 == value)?;
                Some([0, items[at].0, at as u32, value as u32])
            });
            self.find(18, &place.unwrap_or([18, 0, 0, 0]), name.as_bytes());
        }
    }

    fn walk(&mut self, image: &Image<'_>, bytes: &[u8], random: &mut Random) {
        let strings = word_at(bytes, 76) as usize;
        let origin = random.below(image.node_count() + 1) as u32;
        let relative = random.once_in(2);
        let mut steps = vec![];
        for _ in 0..random.below(4) {
            let at = image.resolve_path(origin, relative, &steps).unwrap_or(0);
            let named = image.named_child_at(at, 0);
            let step = match (random.below(4), named) {
                (0, _) => Step::Parent,
                (1, Some(entry)) => {
                    let name = &bytes[strings + entry.name.0 as usize..][..entry.name.1 as usize];
                    Step::Name(core::str::from_utf8(name).expect("a name").to_owned())
                }
                (1, None) => Step::Name("a".to_owned()),
                _ => Step::Index(random.below(3) as u32),
            };
            steps.push(step);
        }
        let (components, names) = components(&steps);
        let end = image.resolve_path(origin, relative, &steps);
        let number = if end.is_some() { 0 } else { 18 };
        let head = [origin, u32::from(relative), number, end.unwrap_or(0), steps.len() as u32];
        let words = head.into_iter().chain(components).chain([names.len() as u32]).chain(packed(&names));
        self.put(19, words);
    }

    /// Members of the small families and pairs of faults, until each reason has come up often enough.
    fn rare(&mut self, random: &mut Random) {
        let accepted = self.rows[0] + ACCEPTED;
        for turn in 0..60_000 {
            let bytes = if turn % 2 == 0 {
                let family = random.pick(&FAMILIES);
                (family.member)(random.next() % family.size)
            } else {
                let shape = Shape { nodes: 1 + random.below(6), ..Shape::random(random) };
                let parts = Story::random(shape, random).parts(random);
                damage::random(&parts, random).1
            };
            let enough = match reference::load(&bytes) {
                Ok(_) => self.enough_of_index(&bytes) && (self.rows[0] >= accepted || path_index::row(&bytes) != 0),
                Err(reason) => self.reasons.get(&reason).is_some_and(|count| *count >= OF_REASON),
            };
            if !enough && bytes.len() <= 600 {
                self.image(&bytes);
            }
        }
    }

    /// Whether all that is met in the index of an image has come up often enough.
    fn enough_of_index(&self, bytes: &[u8]) -> bool {
        let counts = self.index.iter().zip(path_index::met(bytes));
        counts.filter(|(_, met)| *met).all(|(count, _)| *count >= OF_REASON)
    }

    /// What the sample lacks of path indexes.
    fn missing_of_index(&self) -> impl Iterator<Item = String> {
        let cases = path_index::CASES.iter().zip(self.index);
        cases.filter(|((_, [accepted, _]), count)| *accepted && *count == 0).map(|((what, _), _)| what.to_string())
    }

    /// Drafts inside the comparison.
    fn drafts(&mut self, random: &mut Random) {
        let mut counts = [0; 24];
        for _ in 0..20_000 {
            let case = drafts::random(random);
            let (number, image) = match reference::write(case.ink, &case.draft) {
                Written::Image(image) if case.known == drafts::Known::Sound && path_index::row(&image) == 0 => {
                    (0, image)
                }
                Written::Refused(message) if case.known == drafts::Known::Number(writer_row(&message).unwrap()) => {
                    (writer_row(&message).unwrap(), vec![])
                }
                Written::Refused(_) if only_refusal(&case) => (21, vec![]),
                _ => continue,
            };
            let size = case.draft.nodes.len() + (case.draft.strings.len() + image.len()) / 4;
            if counts[number as usize] < DRAFTS && size <= DRAFT_SIZE {
                counts[number as usize] += 1;
                self.draft(case.ink, number, &case.draft, &image);
            }
        }
    }

    fn draft(&mut self, ink: u32, number: u32, draft: &Draft, image: &[u8]) {
        let words = [&draft.nodes, &draft.children, &draft.named, &draft.definitions, &draft.items];
        let bytes = [&draft.payload[..], &draft.strings[..], image];
        let lengths = words.iter().map(|words| words.len()).chain(bytes.iter().map(|bytes| bytes.len()));
        let mut all = vec![ink, number];
        all.extend(lengths.map(|length| length as u32));
        all.extend(words.into_iter().flatten());
        all.extend(bytes.into_iter().flat_map(packed));
        self.put(20, all);
    }
}

/// 21 applies, alone or with 20 or 22, and nothing that is tested before them.
fn only_refusal(case: &drafts::Case) -> bool {
    case.known == drafts::Known::Number(21) || case.name == "named target"
}
