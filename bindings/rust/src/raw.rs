//! Any bytes under any view: what the library answers, with texts and list values by their places.
//!
//! On bytes that were not accepted a query still ends, with parts inside the bytes or with nothing.
//! [`Image`](crate::Image) is the same on accepted bytes, where texts are `&str`.

use crate::ask::{ask, search, word};
use crate::ffi;
use crate::node::{self, NodeViewOf, Parts};
use crate::path::{self, Step};
use crate::refusal::Refusal;
use crate::view::View;
use crate::{NONE, Section};
use core::fmt;

/// A text, by its place in the strings.
#[derive(Clone, Copy, Debug, Default, PartialEq, Eq)]
pub struct TextPlace {
    pub offset: u32,
    pub length: u32,
}

/// A list value, by its place in the payload.
#[derive(Clone, Copy, Debug, Default, PartialEq, Eq)]
pub struct ListPlace {
    pub offset: u32,
    pub length: u32,
}

/// A node with texts and lists by their places.
pub type NodeView = NodeViewOf<TextPlace, ListPlace>;

#[derive(Clone, Copy, Debug, PartialEq, Eq)]
pub struct NamedChild {
    pub name: TextPlace,
    pub node: u32,
}

#[derive(Clone, Copy, Debug, PartialEq, Eq)]
pub struct ListEntry {
    pub origin: Option<TextPlace>,
    pub name: TextPlace,
    pub value: i32,
}

/// How many items and origins a list value has.
#[derive(Clone, Copy, Debug, PartialEq, Eq)]
pub struct ListCounts {
    pub items: u32,
    pub origins: u32,
}

#[derive(Clone, Copy, Debug, PartialEq, Eq)]
pub struct Definition {
    pub name: TextPlace,
    /// How many items it has.
    pub items: u32,
}

#[derive(Clone, Copy, Debug, PartialEq, Eq)]
pub struct DefinitionItem {
    pub name: TextPlace,
    pub value: i32,
}

/// An item found by name.
#[derive(Clone, Copy, Debug, PartialEq, Eq)]
pub struct ListItem {
    /// The number of its definition.
    pub definition: u32,
    /// Its number among the items of all definitions.
    pub item: u32,
    pub value: i32,
}

/// What a search for an item by its name gives.
#[derive(Clone, Copy, Debug, PartialEq, Eq)]
pub struct ItemSearch {
    /// The item, if there is one.
    pub item: Option<ListItem>,
    /// How many definitions' items were searched: without a dot those from the last down to the one that answers, or
    /// all; with a dot one if what stands before the first dot is the name of a definition, else none; for a name that
    /// is empty or blank none.
    pub searched: u32,
}

/// Bytes and the words of a view, to be asked.
#[derive(Clone, Copy)]
pub struct Queries<'a> {
    bytes: &'a [u8],
    /// The view's words, as the library takes them.
    words: [u32; View::WORDS],
}

impl fmt::Debug for Queries<'_> {
    fn fmt(&self, f: &mut fmt::Formatter<'_>) -> fmt::Result {
        f.debug_struct("Queries").field("bytes", &self.bytes.len()).field("view", &self.view()).finish()
    }
}

struct Places;

impl Parts for Places {
    type Text = TextPlace;
    type List = ListPlace;

    #[inline]
    fn text(&self, offset: u32, length: u32) -> TextPlace {
        TextPlace { offset, length }
    }

    #[inline]
    fn list(&self, _: u32, offset: u32, length: u32) -> Option<ListPlace> {
        Some(ListPlace { offset, length })
    }
}

/// An item of a list value.
#[inline]
fn entry(&[origin, origin_length, offset, length, value]: &[u32; 5]) -> Option<ListEntry> {
    let origin = (origin != NONE).then_some(TextPlace { offset: origin, length: origin_length });
    Some(ListEntry { origin, name: TextPlace { offset, length }, value: value as i32 })
}

/// The place of a text.
#[inline]
fn place(&[offset, length]: &[u32; 2]) -> Option<TextPlace> {
    Some(TextPlace { offset, length })
}

impl<'a> Queries<'a> {
    pub fn new(bytes: &'a [u8], view: View) -> Self {
        Queries { bytes, words: view.words() }
    }

    pub(crate) fn with_words(bytes: &'a [u8], words: [u32; View::WORDS]) -> Self {
        Queries { bytes, words }
    }

    pub fn bytes(&self) -> &'a [u8] {
        self.bytes
    }

    pub fn view(&self) -> View {
        View::from(self.words)
    }

    /// The view, with texts and lists as `parts` hands them back.
    #[inline]
    pub(crate) fn node_view_with<P: Parts>(&self, node: u32, parts: &P) -> Option<NodeViewOf<P::Text, P::List>> {
        ask!(self, ffi::story_image_node_view, node => |words| node::view_of(node, words, parts))
    }

    pub fn node_view(&self, node: u32) -> Option<NodeView> {
        self.node_view_with(node, &Places)
    }

    /// The ten words of a node's view, as include/story_image.h has them.
    pub fn node_words(&self, node: u32) -> Option<[u32; node::WORDS]> {
        ask!(self, ffi::story_image_node_view, node => |words| Some(*words))
    }

    /// Writes a slot of [`Slot::WORDS`](crate::Slot::WORDS) words for each number, in their order: the node's words as
    /// the image holds them, then 0 and 0; 18 and eleven zeros for a number without a view. Words after the last slot
    /// stay as they were. With fewer words a number: 24 ([`Refusal::TOO_FEW_SLOTS`]), and nothing is written.
    pub fn page(&self, numbers: &[u32], slots: &mut [u32]) -> Result<(), Refusal> {
        let (bytes, view) = (self.bytes, &self.words);
        // SAFETY: the slices live through the call, and the slots, which alone are written, are borrowed alone.
        Refusal::of(unsafe {
            ffi::story_image_page(
                bytes.as_ptr(),
                bytes.len(),
                view.as_ptr(),
                view.len(),
                numbers.as_ptr(),
                numbers.len(),
                slots.as_mut_ptr(),
                slots.len(),
            )
        })
    }

    /// The view of a slot's words: for a slot that [`page`](Self::page) wrote, what [`node_view`](Self::node_view)
    /// gives for its number. Any ten words are taken as a node's; nothing for fewer, and none past them is looked at.
    pub fn slot_view(&self, slot: &[u32]) -> Option<NodeView> {
        ask!(self, ffi::story_image_slot_view, slot.as_ptr(), slot.len() => |words| node::view_of(NONE, words, &Places))
    }

    /// The ten words of a slot's view, as include/story_image.h has them.
    pub fn slot_view_words(&self, slot: &[u32]) -> Option<[u32; node::WORDS]> {
        ask!(self, ffi::story_image_slot_view, slot.as_ptr(), slot.len() => |words| Some(*words))
    }

    /// Writes a word for each node: how many choices, diverts, divert-target values and references name it. Words past
    /// the nodes stay as they were. A target that is no node counts for nothing; a node section outside the bytes has no
    /// node. With fewer words than nodes: 27 ([`Refusal::BAD_SUMMARY`]), and nothing is written.
    pub fn count_targets(&self, counts: &mut [u32]) -> Result<(), Refusal> {
        let (bytes, view) = (self.bytes, &self.words);
        // SAFETY: the slices live through the call, and the counts, which alone are written, are borrowed alone.
        Refusal::of(unsafe {
            ffi::story_image_count_targets(
                bytes.as_ptr(),
                bytes.len(),
                view.as_ptr(),
                view.len(),
                counts.as_mut_ptr(),
                counts.len(),
            )
        })
    }

    /// The number of parent steps to node 0; nothing for a node outside, and where parents lead outside or in a circle.
    pub fn depth(&self, node: u32) -> Option<u32> {
        ask!(self, ffi::story_image_depth, node => word)
    }

    pub fn child_count(&self, node: u32) -> Option<u32> {
        ask!(self, ffi::story_image_child_count, node => word)
    }

    pub fn child_at(&self, node: u32, index: u32) -> Option<u32> {
        ask!(self, ffi::story_image_child_at, node, index => word)
    }

    pub fn named_child_count(&self, node: u32) -> Option<u32> {
        ask!(self, ffi::story_image_named_child_count, node => word)
    }

    pub fn named_child_at(&self, node: u32, index: u32) -> Option<NamedChild> {
        ask!(self, ffi::story_image_named_child_at, node, index => |&[offset, length, node]| {
            Some(NamedChild { name: TextPlace { offset, length }, node })
        })
    }

    pub fn find_named_child(&self, node: u32, name: &[u8]) -> Option<u32> {
        ask!(self, ffi::story_image_find_named_child, node, name.as_ptr(), name.len() => word)
    }

    /// Where a text lies in the bytes: start and length.
    pub fn text_part(&self, text: TextPlace) -> Option<(usize, usize)> {
        ask!(self, ffi::story_image_text, text.offset, text.length => |&[start, length]| {
            Some((start as usize, length as usize))
        })
    }

    /// A text's bytes, as a part of the image.
    pub fn text(&self, text: TextPlace) -> Option<&'a [u8]> {
        let (start, length) = self.text_part(text)?;
        self.bytes.get(start..start + length)
    }

    fn section_part(&self, section: Section, offset: u32, length: u32) -> &'a [u8] {
        let start = section.offset as usize + offset as usize;
        self.bytes.get(start..start + length as usize).unwrap_or(&[])
    }

    pub(crate) fn strings(&self) -> &'a [u8] {
        let strings = self.view().strings;
        self.section_part(strings, 0, strings.count)
    }

    /// Where the payload of a node's list value lies in the bytes: start and length.
    pub fn list_payload(&self, node: u32) -> Option<(usize, usize)> {
        ask!(self, ffi::story_image_list_payload, node => |&[start, length]| Some((start as usize, length as usize)))
    }

    pub fn list_counts(&self, node: u32) -> Option<ListCounts> {
        ask!(self, ffi::story_image_list_counts, node => |&[items, origins]| Some(ListCounts { items, origins }))
    }

    /// Item `index` of a node's list value.
    pub fn node_list_entry(&self, node: u32, index: u32) -> Option<ListEntry> {
        ask!(self, ffi::story_image_node_list_entry, node, index => entry)
    }

    /// Origin `index` of a node's list value.
    pub fn node_list_origin(&self, node: u32, index: u32) -> Option<TextPlace> {
        ask!(self, ffi::story_image_node_list_origin, node, index => place)
    }

    /// The payload of a list value; empty where it is not inside the bytes.
    fn list_part(&self, list: ListPlace) -> &'a [u8] {
        self.section_part(self.view().payload, list.offset, list.length)
    }

    /// Item `index` of a list value.
    pub fn list_entry(&self, list: ListPlace, index: u32) -> Option<ListEntry> {
        list_entry(self.list_part(list), self.strings(), index)
    }

    /// Origin `index` of a list value.
    pub fn list_origin(&self, list: ListPlace, index: u32) -> Option<TextPlace> {
        list_origin(self.list_part(list), self.strings(), index)
    }

    pub fn definition_count(&self) -> Option<u32> {
        ask!(self, ffi::story_image_definition_count => word)
    }

    pub fn definition(&self, index: u32) -> Option<Definition> {
        ask!(self, ffi::story_image_definition, index => |&[offset, length, items]| {
            Some(Definition { name: TextPlace { offset, length }, items })
        })
    }

    /// The first item of a definition among the items of all.
    pub fn first_item(&self, definition: u32) -> Option<u32> {
        ask!(self, ffi::story_image_definition_first_item, definition => word)
    }

    /// Item `item` of a definition, counted from its first.
    pub fn definition_item(&self, index: u32, item: u32) -> Option<DefinitionItem> {
        ask!(self, ffi::story_image_definition_item, index, item => |&[offset, length, value]| {
            Some(DefinitionItem { name: TextPlace { offset, length }, value: value as i32 })
        })
    }

    /// The item that a name means, with or without its definition's name and a dot in front, and how many definitions'
    /// items were searched.
    pub fn list_item(&self, name: &[u8]) -> ItemSearch {
        search(ffi::story_image_find_list_item, self.bytes, &self.words, name)
    }

    /// The node at the end of a path, as [`Image::resolve_path`](crate::Image::resolve_path).
    pub fn resolve_path(&self, origin: u32, relative: bool, path: &[Step<'_>]) -> Option<u32> {
        let walk = |at, relative, words: &[u32], names: &[u8]| self.resolve_components(at, relative, words, names);
        path::resolve(origin, relative, path, walk, |node| self.child_count(node).is_some())
    }

    /// A walk along components as the library takes them: three words each, and the bytes of names.
    pub fn resolve_components(&self, origin: u32, relative: bool, path: &[u32], names: &[u8]) -> Option<u32> {
        let (path_length, names_length) = (path.len(), names.len());
        let (path, names) = (path.as_ptr(), names.as_ptr());
        ask!(self, ffi::story_image_resolve_path, origin, relative, path, path_length, names, names_length => word)
    }
}

/// Item `index` of a list value, from its payload and the strings.
pub fn list_entry(payload: &[u8], strings: &[u8], index: u32) -> Option<ListEntry> {
    let (payload_length, strings_length) = (payload.len(), strings.len());
    let (payload, strings) = (payload.as_ptr(), strings.as_ptr());
    ask(
        // SAFETY: as in `ask!`.
        |answer, length| unsafe {
            ffi::story_image_list_entry(payload, payload_length, strings, strings_length, index, answer, length)
        },
        entry,
    )
}

/// Origin `index` of a list value, from its payload and the strings.
pub fn list_origin(payload: &[u8], strings: &[u8], index: u32) -> Option<TextPlace> {
    let (payload_length, strings_length) = (payload.len(), strings.len());
    let (payload, strings) = (payload.as_ptr(), strings.as_ptr());
    ask(
        // SAFETY: as in `ask!`.
        |answer, length| unsafe {
            ffi::story_image_list_origin(payload, payload_length, strings, strings_length, index, answer, length)
        },
        place,
    )
}

/// A word of the header, of the bytes alone; nothing under 88 bytes.
fn header_word(bytes: &[u8], query: unsafe extern "C" fn(*const u8, usize, *mut u32, usize) -> u32) -> Option<u32> {
    // SAFETY: as in `ask!`.
    ask(|answer, length| unsafe { query(bytes.as_ptr(), bytes.len(), answer, length) }, word)
}

/// The total length, in bytes, that a header gives.
///
/// ```
/// use story_image::raw;
///
/// # let bytes = include_bytes!(concat!(env!("CARGO_MANIFEST_DIR"), "/../../samples/step.image"));
/// assert_eq!(raw::total_length(&bytes[..88]), Some(bytes.len() as u32));
/// assert_eq!(raw::total_length(&bytes[..87]), None);
/// ```
pub fn total_length(bytes: &[u8]) -> Option<u32> {
    header_word(bytes, ffi::story_image_total_length)
}

/// The length of the string section, in bytes, that a header gives.
pub fn strings_length(bytes: &[u8]) -> Option<u32> {
    header_word(bytes, ffi::story_image_strings_length)
}

/// The checksum that a header gives.
pub fn checksum(bytes: &[u8]) -> Option<u32> {
    header_word(bytes, ffi::story_image_checksum)
}
