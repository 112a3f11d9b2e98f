//! What both sides are asked: the interface of a story-image library in plain types.

pub mod sleeper;

use crate::parts::ENTRY_SIZES;
use reference::{Draft, Named, NodeView, Step};
use sleeper::Sleeper;

/// Ink version, then offset and count of each of the eight sections.
pub type View = [u32; 17];

pub type Place = (u32, u32);

/// A list entry: optional origin, name, value.
#[derive(Clone, Debug, PartialEq)]
pub struct Entry {
    pub origin: Option<Place>,
    pub name: Place,
    pub value: i32,
}

/// A list item by its numbers: its definition's, its own among the items of all definitions; and its value.
#[derive(Clone, Copy, Debug, PartialEq)]
pub struct Found {
    pub definition: u32,
    pub item: u32,
    pub value: i32,
}

/// What a look-up of a list item gives: the item, and how many definitions' items were searched.
#[derive(Clone, Copy, Debug, Default, PartialEq)]
pub struct Looked {
    pub item: Option<Found>,
    pub searched: u32,
}

/// A side of the comparison: the load, and what else it has.
pub trait Library {
    /// The number, and the view if it is 0.
    fn load(&self, bytes: &[u8], work: &mut [u32]) -> (u32, View);
    fn queries(&self) -> Option<&dyn Queries>;
    fn writer(&self) -> Option<&dyn Writer>;
    fn targets(&self) -> Option<&dyn Targets>;
    fn counting(&self) -> Option<&dyn Counting>;
    /// The sleeper's reader on some bytes.
    fn sleeper<'a>(&'a self, bytes: &'a [u8]) -> Option<Box<dyn Sleeper + 'a>>;
    /// Total length, length of the strings and checksum, as the technician's calls tell them.
    fn header_words(&self, bytes: &[u8]) -> [Option<u32>; 3];
    /// Whether it answers where the published Rust does not: unaccepted bytes, broken drafts.
    fn answers_all(&self) -> bool {
        true
    }
}

/// Absence of an answer is number 18.
pub trait Queries {
    fn node_view(&self, bytes: &[u8], view: &View, node: u32) -> Option<NodeView>;
    /// The number; a slot of twelve words is written for each of the numbers. The view may be too short.
    fn page(&self, bytes: &[u8], view: &[u32], numbers: &[u32], slots: &mut [u32]) -> u32;
    /// The words of a node's view, and of the view of a slot's words, under a view that may be too short.
    fn node_words(&self, bytes: &[u8], view: &[u32], node: u32) -> Option<[u32; 10]>;
    fn slot_words(&self, bytes: &[u8], view: &[u32], slot: &[u32]) -> Option<[u32; 10]>;
    /// The number of parent steps to node 0.
    fn depth(&self, bytes: &[u8], view: &View, node: u32) -> Option<u32>;
    fn child_count(&self, bytes: &[u8], view: &View, node: u32) -> Option<u32>;
    fn child_at(&self, bytes: &[u8], view: &View, node: u32, index: u32) -> Option<u32>;
    fn named_child_count(&self, bytes: &[u8], view: &View, node: u32) -> Option<u32>;
    fn named_child_at(&self, bytes: &[u8], view: &View, node: u32, index: u32) -> Option<Named>;
    fn find_named_child(&self, bytes: &[u8], view: &View, node: u32, name: &[u8]) -> Option<u32>;
    /// Start and length, in the image's bytes, of a text of the strings.
    fn text(&self, bytes: &[u8], view: &View, text: Place) -> Option<(usize, usize)>;
    /// Item j and origin j of a list value, by its place in the payload.
    fn list_entry(&self, bytes: &[u8], view: &View, list: Place, index: u32) -> Option<Entry>;
    fn list_origin(&self, bytes: &[u8], view: &View, list: Place, index: u32) -> Option<Place>;
    /// How many items and origins the list value has that a node is.
    fn list_counts(&self, bytes: &[u8], view: &View, node: u32) -> Option<[u32; 2]>;
    fn definition_count(&self, bytes: &[u8], view: &View) -> Option<u32>;
    /// Name, and how many items.
    fn definition(&self, bytes: &[u8], view: &View, index: u32) -> Option<(Place, u32)>;
    fn definition_item(&self, bytes: &[u8], view: &View, index: u32, item: u32) -> Option<(Place, i32)>;
    /// The number, among the items of all definitions, of a definition's first.
    fn first_item(&self, bytes: &[u8], view: &View, index: u32) -> Option<u32>;
    fn list_item(&self, bytes: &[u8], view: &View, name: &[u8]) -> Looked;
    /// Its words, under a view that may be too short; the count goes to the first of the words that are lent.
    fn list_item_words(&self, bytes: &[u8], view: &[u32], name: &[u8], searched: &mut [u32]) -> Option<[u32; 3]>;
    fn resolve_path(&self, bytes: &[u8], view: &View, origin: u32, relative: bool, steps: &[Step]) -> Option<u32>;
    /// The same, from a component's three words each and the bytes of names.
    fn resolve_components(
        &self,
        bytes: &[u8],
        view: &View,
        origin: u32,
        relative: bool,
        components: &[u32],
        names: &[u8],
    ) -> Option<u32>;
}

pub trait Writer {
    /// The number, and the length that was written with 0, is needed with 23.
    fn write(&self, ink: u32, draft: &Draft, work: &mut [u32], output: &mut [u8]) -> (u32, usize);
}

/// Paths beside a draft: four words each (node, 0 absolute or 1 relative, first component, how many), three words a
/// component, the bytes of names.
#[derive(Clone, Debug, Default, PartialEq)]
pub struct PathList {
    pub entries: Vec<u32>,
    pub components: Vec<u32>,
    pub names: Vec<u8>,
}

pub trait Targets {
    /// The number; the draft's nodes are written with 0.
    fn resolve(&self, ink: u32, draft: &mut Draft, paths: &PathList, work: &mut [u32]) -> u32;
    /// The list of all path texts of a draft, parsed; nodes rise.
    fn paths(&self, draft: &Draft) -> PathList;
}

/// Targets counted, a word a node, and set.
pub trait Counting {
    /// The number; the words are written with 0. The view may be too short.
    fn count(&self, bytes: &[u8], view: &[u32], counts: &mut [u32]) -> u32;
    fn count_draft(&self, draft: &Draft, counts: &mut [u32]) -> u32;
    /// The number; with 0 a word of the draft's nodes and up to two of the summary change.
    fn set(&self, draft: &mut Draft, counts: &mut [u32], node: u32, target: u32) -> u32;
}

/// Steps as components and names.
pub fn components(steps: &[Step]) -> (Vec<u32>, Vec<u8>) {
    let (mut words, mut names) = (vec![], vec![]);
    for step in steps {
        words.extend(match step {
            Step::Parent => [0, 0, 0],
            Step::Index(index) => [1, *index, 0],
            Step::Name(name) => [2, names.len() as u32, name.len() as u32],
        });
        if let Step::Name(name) = step {
            names.extend_from_slice(name.as_bytes());
        }
    }
    (words, names)
}

/// The view that a header's words make, whatever they are worth.
pub fn header_view(bytes: &[u8]) -> View {
    std::array::from_fn(|k| crate::parts::word_at(bytes, if k == 0 { 12 } else { 16 + 4 * k }))
}

/// A section under any view: empty if it does not lie in the bytes.
pub fn section<'a>(bytes: &'a [u8], view: &View, section: usize) -> &'a [u8] {
    let (start, count) = (view[1 + 2 * section] as usize, view[2 + 2 * section] as usize);
    bytes.get(start..start + count * ENTRY_SIZES[section]).unwrap_or(&[])
}

pub fn load_words(bytes: &[u8]) -> usize {
    let count = |section: usize| crate::parts::word_at(bytes, 24 + 8 * section) as usize;
    count(0) + count(1) + count(2) + 1
}

pub fn write_words(draft: &Draft) -> usize {
    let entries = draft.children.len() + draft.named.len() / 3 + draft.definitions.len() / 4 + draft.items.len() / 3;
    16 * (draft.nodes.len() / 10) + 4 * (entries + draft.payload.len())
}
