//! The rule of the path index that the published Rust does not have: only the canonical path fits, and nothing fits
//! where a nameless container of place NONE, the root excepted, is the target or on the way to it. Such an entry gets
//! 16.
//!
//! What a load must answer is still asked of the published Rust. Where an entry breaks the rule, it is asked of the
//! image in which the first such entry has the text (0, 0), the empty one. That text is always good, and it fits no
//! container but the root; so the Rust refuses the entry with 16, for its order or its fit, unless something before it
//! is refused. All that is tested before it, the entries before it among them, is the same in both images, and nothing
//! is tested after it.

use crate::library::{header_view, section};
use crate::pages::{Nodes, Record};
use crate::parts::{ENTRY_SIZES, NONE, repair, set_word, word_at};
use crate::rows::row_of;
use crate::tally::Tally;

/// The section that the index is.
const INDEX: usize = 5;

/// What must come up in the indexes of images whose header passes: each case in words, and whether it can be in one
/// that the published Rust accepts, and in one that it refuses.
pub const CASES: [(&str, [bool; 2]); 9] = [
    ("a dot before the path of a child of the root", [true, true]),
    ("a dot before the path of one further down", [true, true]),
    ("a dot before the path, which is filed too", [true, true]),
    ("nameless, of place NONE: the target", [true, true]),
    ("nameless, of place NONE: on the way alone", [true, true]),
    ("nameless, of place NONE: above a named target", [true, true]),
    ("named, of place NONE: the target, rule kept", [true, true]),
    ("named, of place NONE: on the way, rule kept", [true, true]),
    ("a dot for the root", [false, true]),
];

/// The published rows in whose place 16 comes: what is tested behind the entry passes, or is broken in one of these
/// ways.
pub const TURNED: [u32; 5] = [0, 9, 10, 11, 17];

/// An entry whose text is good and whose target is a container other than the root.
#[derive(Clone, Copy)]
pub struct Entry {
    node: u32,
    /// Parent steps to the root.
    pub depth: usize,
    /// The text is a dot before the canonical path.
    pub dotted: bool,
    named: bool,
    /// A nameless container of place NONE is the target, is above it.
    pub none_target: bool,
    pub none_on_way: bool,
    /// The same of named ones, which may stand there.
    pub named_target: bool,
    pub named_on_way: bool,
}

impl Entry {
    pub fn breaks_rule(&self) -> bool {
        self.dotted || self.none_target || self.none_on_way
    }
}

/// What is read of an image for its index; a section that does not lie in the bytes is empty.
struct Sections<'a> {
    nodes: Nodes<'a>,
    count: usize,
    index: &'a [u8],
    strings: &'a [u8],
}

impl<'a> Sections<'a> {
    fn new(bytes: &'a [u8]) -> Self {
        let view = header_view(bytes);
        let [index, strings] = [INDEX, 7].map(|k| section(bytes, &view, k));
        Sections { nodes: Nodes::new(bytes, &view), count: view[2] as usize, index, strings }
    }

    /// The words of all entries: text, target.
    fn words(&self) -> impl Iterator<Item = [u32; 3]> {
        self.index.chunks_exact(ENTRY_SIZES[INDEX]).map(|entry| std::array::from_fn(|k| word_at(entry, 4 * k)))
    }

    fn text(&self, at: u32, length: u32) -> Option<&'a str> {
        if at == NONE || length == NONE {
            return None;
        }
        let text = self.strings.get(at as usize..at as usize + length as usize)?;
        core::str::from_utf8(text).ok()
    }

    /// The container's name; empty if it has none.
    fn name(&self, container: &Record) -> &'a str {
        self.text(container[3], container[4]).unwrap_or("")
    }

    /// The containers from a node up to the root, which is left out. None if its parents do not lead there, or not over
    /// containers alone: such images are refused before their index.
    fn way(&self, node: u32) -> Option<Vec<Record>> {
        let (mut at, mut way) = (node, vec![]);
        while at != 0 {
            let record = self.nodes.record(at).filter(|record| record[2] == 1 && way.len() < self.count)?;
            at = record[0];
            way.push(record);
        }
        Some(way)
    }

    fn path(&self, way: &[Record]) -> String {
        let pieces = way.iter().rev().map(|container| match self.name(container) {
            "" => container[1].to_string(),
            name => name.to_owned(),
        });
        pieces.collect::<Vec<_>>().join(".")
    }

    fn entry(&self, [at, length, node]: [u32; 3]) -> Option<Entry> {
        let (text, way) = (self.text(at, length)?, self.way(node)?);
        let (target, above) = way.split_first()?;
        let is_named = |container: &Record| !self.name(container).is_empty();
        let nameless = |container: &Record| container[1] == NONE && !is_named(container);
        let named = |container: &Record| container[1] == NONE && is_named(container);
        Some(Entry {
            node,
            depth: way.len(),
            dotted: text.strip_prefix('.').is_some_and(|rest| rest == self.path(&way)),
            named: is_named(target),
            none_target: nameless(target),
            none_on_way: above.iter().any(nameless),
            named_target: named(target),
            named_on_way: above.iter().any(named),
        })
    }
}

/// The published Rust's own row.
fn published_row(bytes: &[u8]) -> u32 {
    reference::load(bytes).err().map_or(0, |reason| row_of(&reason).expect("every reason has a row"))
}

/// The image with the empty text for an entry of its index.
fn emptied(bytes: &[u8], entry: usize) -> Vec<u8> {
    let mut bytes = bytes.to_vec();
    let at = header_view(&bytes)[1 + 2 * INDEX] as usize + entry * ENTRY_SIZES[INDEX];
    set_word(&mut bytes, at, 0);
    set_word(&mut bytes, at + 4, 0);
    repair(&mut bytes);
    bytes
}

/// Whether the header and the checksum pass: only then do sections lie apart, and entries where the header says.
fn header_passes(published: u32) -> bool {
    !(1..=6).contains(&published)
}

/// The row of the published Rust with the rule added, or with another rule in its place.
pub fn row_by(bytes: &[u8], breaks: impl Fn(&Entry) -> bool) -> u32 {
    let published = published_row(bytes);
    if !header_passes(published) {
        return published;
    }
    let sections = Sections::new(bytes);
    let first = sections.words().position(|words| sections.entry(words).is_some_and(|entry| breaks(&entry)));
    row_with(bytes, first, published)
}

/// The row, where the first entry that breaks the rule is known.
fn row_with(bytes: &[u8], first: Option<usize>, published: u32) -> u32 {
    first.map_or(published, |entry| published_row(&emptied(bytes, entry)))
}

/// The row of the published Rust with the rule added.
pub fn row(bytes: &[u8]) -> u32 {
    row_by(bytes, Entry::breaks_rule)
}

/// The same where the published row is known; what is met is counted.
pub fn due(bytes: &[u8], published: u32, tally: &mut Tally) -> u32 {
    if !header_passes(published) {
        return published;
    }
    let sections = Sections::new(bytes);
    let entries: Vec<Option<Entry>> = sections.words().map(|words| sections.entry(words)).collect();
    let first = entries.iter().position(|entry| entry.is_some_and(|entry| entry.breaks_rule()));
    let row = row_with(bytes, first, published);
    if row != published {
        assert_eq!(row, 16, "the published row is {published}");
        *tally.turned.entry(published).or_default() += 1;
    }
    let entries: Vec<Entry> = entries.into_iter().flatten().collect();
    for (count, met) in tally.index.iter_mut().zip(cases(&sections, &entries)) {
        count[usize::from(published != 0)] += u64::from(met);
    }
    row
}

/// Which cases are met in the index of an image whose header passes.
pub fn met(bytes: &[u8]) -> [bool; CASES.len()] {
    let sections = Sections::new(bytes);
    let entries: Vec<Entry> = sections.words().filter_map(|words| sections.entry(words)).collect();
    cases(&sections, &entries)
}

fn cases(sections: &Sections<'_>, entries: &[Entry]) -> [bool; CASES.len()] {
    let any = |is: fn(&Entry) -> bool| entries.iter().any(is);
    let filed = |node: u32| entries.iter().any(|entry| entry.node == node && !entry.dotted);
    let kept = !any(Entry::breaks_rule);
    [
        any(|entry| entry.dotted && entry.depth == 1),
        any(|entry| entry.dotted && entry.depth > 1),
        entries.iter().any(|entry| entry.dotted && filed(entry.node)),
        any(|entry| entry.none_target),
        any(|entry| entry.none_on_way && !entry.none_target),
        any(|entry| entry.none_on_way && entry.named),
        kept && any(|entry| entry.named_target),
        kept && any(|entry| entry.named_on_way),
        sections.words().any(|[at, length, node]| node == 0 && sections.text(at, length) == Some(".")),
    ]
}

/// Whether the index of an accepted image names each container exactly once, and nothing else.
pub fn names_each_once(bytes: &[u8]) -> bool {
    let sections = Sections::new(bytes);
    let mut named = vec![0; sections.count];
    sections.words().for_each(|[_, _, node]| named[node as usize] += 1);
    let is_container = |node: usize| sections.nodes.record(node as u32).is_some_and(|record| record[2] == 1);
    named.iter().enumerate().all(|(node, times)| *times == u32::from(is_container(node)))
}

#[cfg(test)]
mod tests {
    use super::*;
    use crate::damage;
    use crate::parts::Parts;
    use crate::random::Random;
    use crate::small;
    use crate::stories::{Shape, Story};

    fn text(parts: &Parts, at: u32, length: u32) -> &str {
        let text = if at == NONE { &[] } else { &parts.strings[at as usize..][..length as usize] };
        core::str::from_utf8(text).unwrap()
    }

    /// The canonical path from the root down, piece by piece; none where a piece has neither name nor place.
    fn path(parts: &Parts, node: u32) -> Option<String> {
        if node == 0 {
            return Some(String::new());
        }
        let [parent, place, _, at, length, ..] = parts.nodes[node as usize];
        let (above, name) = (path(parts, parent)?, text(parts, at, length));
        let piece = if !name.is_empty() {
            name.to_owned()
        } else if place != NONE {
            place.to_string()
        } else {
            return None;
        };
        Some(if parent == 0 { piece } else { format!("{above}.{piece}") })
    }

    #[test]
    fn of_images_that_the_rust_accepts_those_with_another_text_get_16() {
        let mut random = Random::new(5);
        let mut counts = [0; 2];
        for _ in 0..20_000 {
            let parts = Story::random(Shape::random(&mut random), &mut random).parts(&mut random);
            let bytes = parts.bytes();
            if published_row(&bytes) == 0 {
                let fits =
                    |entry: &[u32; 3]| path(&parts, entry[2]).as_deref() == Some(text(&parts, entry[0], entry[1]));
                let all = parts.index.iter().all(fits);
                assert_eq!(row(&bytes), if all { 0 } else { 16 });
                assert!(!all || names_each_once(&bytes));
                counts[usize::from(all)] += 1;
            }
        }
        assert!(counts.into_iter().all(|count| count > 1_000), "{counts:?}");
    }

    /// Whatever the bytes, an answer comes, and it is the published one or 16.
    #[test]
    fn any_bytes_have_a_row() {
        let mut random = Random::new(6);
        for _ in 0..5_000 {
            let parts = Story::random(Shape::random(&mut random), &mut random).parts(&mut random);
            let (_, mut bytes) = damage::random(&parts, &mut random);
            for _ in 0..random.below(4).min(bytes.len()) {
                let at = random.below(bytes.len());
                bytes[at] = random.next() as u8;
            }
            repair(&mut bytes);
            assert!([published_row(&bytes), 16].contains(&row(&bytes)));
        }
    }

    /// A container that is only named, its name, place and index text.
    fn one(name: &str, place: u32, text: &str) -> Parts {
        let mut parts = small::smallest();
        parts.strings = format!("x{name}{text}").into_bytes();
        let (named, filed) = (name.len() as u32, text.len() as u32);
        parts.nodes[0][9] = 1;
        parts.named.push([0, 1, 1]);
        parts.nodes.push([0, place, 1, 1, named, 0, 0, 0, 1, 0]);
        parts.index.push([1 + named, filed, 1]);
        parts
    }

    #[test]
    fn one_spelling() {
        let rows = |cases: &[(&str, u32, &str, u32)]| {
            for (name, place, text, due) in cases {
                assert_eq!(row(&one(name, *place, text).bytes()), *due, "{name:?} {place} {text:?}");
            }
        };
        rows(&[("", 3, "3", 0), ("", 3, ".3", 16), ("", 3, "..3", 16), ("", 3, "03", 16)]);
        rows(&[("a", 3, "a", 0), ("a", 3, ".a", 16), ("a", NONE, "a", 0)]);
        rows(&[("", NONE, "4294967295", 16), ("", NONE, ".4294967295", 16), ("4294967295", NONE, "4294967295", 0)]);
        let mut root = small::smallest();
        (root.strings, root.index) = (b".".to_vec(), vec![[0, 1, 0]]);
        assert_eq!(row(&root.bytes()), 16);
    }

    /// Filed below a nameless container of place NONE, named or not; the upper entry is refused first, then alone.
    #[test]
    fn the_way_counts() {
        for (name, path) in [("b", "4294967295.b"), ("", "4294967295.0")] {
            let mut parts = one("", NONE, "4294967295");
            let at = parts.strings.len() as u32;
            parts.strings.extend_from_slice(format!("{name}{path}").as_bytes());
            parts.nodes[1][7] = 1;
            parts.children.push(2);
            parts.nodes.push([1, 0, 1, at, name.len() as u32, 0, 1, 0, 1, 0]);
            parts.index.push([at + name.len() as u32, path.len() as u32, 2]);
            let bytes = parts.bytes();
            assert_eq!((published_row(&bytes), row(&bytes)), (0, 16));
            parts.index[1] = [0, 1, NONE];
            parts.index.swap(1, 2);
            let bytes = parts.bytes();
            assert_eq!((published_row(&bytes), row(&bytes)), (9, 16));
        }
    }
}
