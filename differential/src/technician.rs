//! The technician's reader on one image, in plain types: the published Rust on an image that it accepts, our own calls
//! on any bytes under any view. What is asked of an image follows what it shows, and the sleeper's reader is held to it.

use crate::library::{Looked, Place, Queries, View, section};
use crate::parts::{ENTRY_SIZES, word_at};
use crate::searched::Lists;
use reference::{Image, Kind, ListEntries, Named, NodeView, Step};

/// An item of a list value, its texts as bytes.
pub struct Entry {
    pub origin: Option<Vec<u8>>,
    pub name: Vec<u8>,
    pub value: i32,
}

pub trait Technician {
    fn node_view(&self, node: u32) -> Option<NodeView>;
    /// The bytes at a place that an answer tells; none where it does not lie in the strings.
    fn text(&self, place: Place) -> &[u8];
    fn depth(&self, node: u32) -> Option<u32>;
    fn child_count(&self, node: u32) -> Option<u32>;
    fn child_at(&self, node: u32, index: u32) -> Option<u32>;
    fn named_child_count(&self, node: u32) -> Option<u32>;
    fn named_child_at(&self, node: u32, index: u32) -> Option<Named>;
    fn find_named_child(&self, node: u32, name: &[u8]) -> Option<u32>;
    /// How many items and origins the list value has that a node is.
    fn list_counts(&self, node: u32) -> Option<[u32; 2]>;
    fn list_entry(&self, node: u32, index: u32) -> Option<Entry>;
    fn list_origin(&self, node: u32, index: u32) -> Option<Vec<u8>>;
    fn definition_count(&self) -> Option<u32>;
    /// Name, and how many items.
    fn definition(&self, index: u32) -> Option<(Place, u32)>;
    fn first_item(&self, index: u32) -> Option<u32>;
    fn definition_item(&self, index: u32, item: u32) -> Option<(Place, i32)>;
    /// The name of an item, by its number among the items of all definitions.
    fn item(&self, number: u32) -> Option<Place>;
    fn list_item(&self, name: &[u8]) -> Looked;
    fn resolve_path(&self, origin: u32, relative: bool, steps: &[Step]) -> Option<u32>;
}

/// The published Rust.
pub struct Theirs<'a> {
    pub image: &'a Image<'a>,
    pub lists: Lists<'a>,
    strings: &'a [u8],
}

impl<'a> Theirs<'a> {
    pub fn new(image: &'a Image<'a>, bytes: &'a [u8]) -> Self {
        let strings = &bytes[word_at(bytes, 76) as usize..];
        Theirs { image, lists: Lists::published(image, bytes), strings }
    }

    fn list(&self, node: u32) -> Option<ListEntries> {
        self.image.list_entries(node)
    }
}

impl Technician for Theirs<'_> {
    fn node_view(&self, node: u32) -> Option<NodeView> {
        self.image.node_view(node)
    }

    fn text(&self, (at, length): Place) -> &[u8] {
        &self.strings[at as usize..][..length as usize]
    }

    fn depth(&self, node: u32) -> Option<u32> {
        self.image.steps_to_root(node)
    }

    fn child_count(&self, node: u32) -> Option<u32> {
        self.image.child_count(node).map(|count| count as u32)
    }

    fn child_at(&self, node: u32, index: u32) -> Option<u32> {
        self.image.child_at(node, index as usize)
    }

    fn named_child_count(&self, node: u32) -> Option<u32> {
        self.image.named_child_count(node).map(|count| count as u32)
    }

    fn named_child_at(&self, node: u32, index: u32) -> Option<Named> {
        self.image.named_child_at(node, index as usize)
    }

    fn find_named_child(&self, node: u32, name: &[u8]) -> Option<u32> {
        self.image.find_named_child(node, core::str::from_utf8(name).ok()?)
    }

    fn list_counts(&self, node: u32) -> Option<[u32; 2]> {
        self.list(node).map(|list| [list.items.len() as u32, list.origins.len() as u32])
    }

    fn list_entry(&self, node: u32, index: u32) -> Option<Entry> {
        let entry = self.list(node)?.items.into_iter().nth(index as usize)?;
        Some(Entry { origin: entry.origin.map(String::into_bytes), name: entry.name.into_bytes(), value: entry.value })
    }

    fn list_origin(&self, node: u32, index: u32) -> Option<Vec<u8>> {
        self.list(node)?.origins.into_iter().nth(index as usize).map(String::into_bytes)
    }

    fn definition_count(&self) -> Option<u32> {
        Some(self.image.definition_count() as u32)
    }

    fn definition(&self, index: u32) -> Option<(Place, u32)> {
        self.image.definition(index as usize).map(|(name, items)| (name, items as u32))
    }

    /// The items before it: the published Rust does not tell.
    fn first_item(&self, index: u32) -> Option<u32> {
        self.definition(index)?;
        Some((0..index).filter_map(|before| self.definition(before)).map(|(_, items)| items).sum())
    }

    fn definition_item(&self, index: u32, item: u32) -> Option<(Place, i32)> {
        self.image.definition_item(index as usize, item as usize)
    }

    fn item(&self, number: u32) -> Option<Place> {
        let mut left = number;
        for index in 0..self.image.definition_count() as u32 {
            let (_, items) = self.definition(index)?;
            if left < items {
                return self.definition_item(index, left).map(|(name, _)| name);
            }
            left -= items;
        }
        None
    }

    fn list_item(&self, name: &[u8]) -> Looked {
        match core::str::from_utf8(name) {
            Ok(text) => self.lists.due(self.image, text),
            Err(_) => self.lists.looked(name),
        }
    }

    fn resolve_path(&self, origin: u32, relative: bool, steps: &[Step]) -> Option<u32> {
        self.image.resolve_path(origin, relative, steps)
    }
}

/// Our own calls.
pub struct Ours<'a> {
    pub queries: &'a dyn Queries,
    pub bytes: &'a [u8],
    pub view: &'a View,
}

impl Ours<'_> {
    fn list(&self, node: u32) -> Option<Place> {
        match self.node_view(node)?.kind {
            Kind::List(list) => Some(list),
            _ => None,
        }
    }
}

impl Technician for Ours<'_> {
    fn node_view(&self, node: u32) -> Option<NodeView> {
        self.queries.node_view(self.bytes, self.view, node)
    }

    fn text(&self, place: Place) -> &[u8] {
        let part = self.queries.text(self.bytes, self.view, place);
        part.map_or(&[], |(start, length)| &self.bytes[start..][..length])
    }

    fn depth(&self, node: u32) -> Option<u32> {
        self.queries.depth(self.bytes, self.view, node)
    }

    fn child_count(&self, node: u32) -> Option<u32> {
        self.queries.child_count(self.bytes, self.view, node)
    }

    fn child_at(&self, node: u32, index: u32) -> Option<u32> {
        self.queries.child_at(self.bytes, self.view, node, index)
    }

    fn named_child_count(&self, node: u32) -> Option<u32> {
        self.queries.named_child_count(self.bytes, self.view, node)
    }

    fn named_child_at(&self, node: u32, index: u32) -> Option<Named> {
        self.queries.named_child_at(self.bytes, self.view, node, index)
    }

    fn find_named_child(&self, node: u32, name: &[u8]) -> Option<u32> {
        self.queries.find_named_child(self.bytes, self.view, node, name)
    }

    fn list_counts(&self, node: u32) -> Option<[u32; 2]> {
        self.queries.list_counts(self.bytes, self.view, node)
    }

    fn list_entry(&self, node: u32, index: u32) -> Option<Entry> {
        let entry = self.queries.list_entry(self.bytes, self.view, self.list(node)?, index)?;
        let text = |place| self.text(place).to_vec();
        Some(Entry { origin: entry.origin.map(text), name: text(entry.name), value: entry.value })
    }

    fn list_origin(&self, node: u32, index: u32) -> Option<Vec<u8>> {
        let origin = self.queries.list_origin(self.bytes, self.view, self.list(node)?, index)?;
        Some(self.text(origin).to_vec())
    }

    fn definition_count(&self) -> Option<u32> {
        self.queries.definition_count(self.bytes, self.view)
    }

    fn definition(&self, index: u32) -> Option<(Place, u32)> {
        self.queries.definition(self.bytes, self.view, index)
    }

    fn first_item(&self, index: u32) -> Option<u32> {
        self.queries.first_item(self.bytes, self.view, index)
    }

    fn definition_item(&self, index: u32, item: u32) -> Option<(Place, i32)> {
        self.queries.definition_item(self.bytes, self.view, index, item)
    }

    /// By the words of the section, as no call of the technician's tells it; where the name does not lie in the
    /// strings there is no item.
    fn item(&self, number: u32) -> Option<Place> {
        let entry = section(self.bytes, self.view, 4).chunks_exact(ENTRY_SIZES[4]).nth(number as usize)?;
        let name = (word_at(entry, 0), word_at(entry, 4));
        self.queries.text(self.bytes, self.view, name).map(|_| name)
    }

    fn list_item(&self, name: &[u8]) -> Looked {
        self.queries.list_item(self.bytes, self.view, name)
    }

    fn resolve_path(&self, origin: u32, relative: bool, steps: &[Step]) -> Option<u32> {
        self.queries.resolve_path(self.bytes, self.view, origin, relative, steps)
    }
}

/// Where the text of a node lies, and the variable of a divert; a list has none.
pub fn texts(kind: &Kind) -> [Option<Place>; 2] {
    match *kind {
        Kind::Container { name, .. } => [name, None],
        Kind::Divert { path, variable, .. } => [path, variable],
        Kind::Tag(text) | Kind::String(text) | Kind::DivertTarget(text) => [Some(text), None],
        Kind::Pointer { name, .. } | Kind::Assignment { name, .. } | Kind::Reference { name, .. } => [Some(name), None],
        _ => [None, None],
    }
}
