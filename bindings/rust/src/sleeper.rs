//! The sleeper's reader: an accepted image without its notes to the technician, and without any place.

use crate::NONE;
use crate::ask::{load, search, word};
use crate::node::{self, NodeKindOf, NodeViewOf, Parts, ValueOf};
use crate::path::{self, Step};
use crate::raw::ItemSearch;
use crate::refusal::Refusal;
use crate::sleeper_ffi as ffi;
use crate::view::View;

/// A node as a [`Sleeper`] sees it. Where the node has a text, this is what to ask for it by; a list value is its node,
/// by which its entries are asked.
pub type SleeperNode = NodeViewOf<Text, u32>;
/// The kind of a node of a [`Sleeper`].
pub type SleeperKind = NodeKindOf<Text, u32>;
/// A value of a [`Sleeper`].
pub type SleeperValue = ValueOf<Text, u32>;

/// Which text of an image, by numbers of nodes, definitions and entries.
#[derive(Clone, Copy, Debug, PartialEq, Eq, Hash)]
pub enum Text {
    /// Name, path or text of a node.
    Node(u32),
    /// The variable that holds the target of a divert.
    Variable(u32),
    /// Of a container, the name of its named child at an index.
    NamedChild(u32, u32),
    /// The name of a list definition.
    Definition(u32),
    /// Of a definition, the name of its item at an index.
    DefinitionItem(u32, u32),
    /// The name of an item, by its number among the items of all definitions.
    Item(u32),
    /// Of a list value, by its node, the name of its item at an index.
    EntryName(u32, u32),
    /// The same, the item's origin, if it has one.
    EntryOrigin(u32, u32),
    /// Of a list value, by its node, its origin at an index.
    Origin(u32, u32),
}

const OF_NODE: u32 = 0;
const OF_VARIABLE: u32 = 1;

impl Text {
    /// The kind and the two numbers that the library takes.
    fn words(self) -> [u32; 3] {
        match self {
            Text::Node(node) => [OF_NODE, node, 0],
            Text::Variable(node) => [OF_VARIABLE, node, 0],
            Text::NamedChild(node, index) => [2, node, index],
            Text::Definition(index) => [3, index, 0],
            Text::DefinitionItem(index, item) => [4, index, item],
            Text::Item(number) => [5, number, 0],
            Text::EntryName(node, index) => [6, node, index],
            Text::EntryOrigin(node, index) => [7, node, index],
            Text::Origin(node, index) => [8, node, index],
        }
    }
}

/// An item of a list value: what to ask for its name and for its origin by, and its value.
#[derive(Clone, Copy, Debug, PartialEq, Eq)]
pub struct SleeperEntry {
    pub name: Text,
    pub origin: Option<Text>,
    pub value: i32,
}

/// An accepted image as a player may show it to the sleeper.
///
/// A note to the technician, a tag whose text begins with `tech:`, is seen as [`Void`](NodeKindOf::Void), with its
/// parent and place, and has no text. All else is as [`Image`](crate::Image) has it. Texts are copied into a lent
/// buffer. Of two accepted images that differ only in what notes hold after `tech:`, in where texts lie, and in total
/// length, length of the string section and checksum, every call here gives the same: that is proved of the functions
/// that are called.
///
/// ```
/// use story_image::{Refusal, Sleeper, SleeperKind, SleeperValue, sleeper_load_words};
///
/// # let bytes = include_bytes!(concat!(env!("CARGO_MANIFEST_DIR"), "/../../samples/note-one.image"));
/// # let other_notes = include_bytes!(concat!(env!("CARGO_MANIFEST_DIR"), "/../../samples/note-two.image"));
/// fn said(bytes: &[u8]) -> Result<String, Refusal> {
///     let sleeper = Sleeper::load(bytes, &mut vec![0; sleeper_load_words(bytes)])?;
///     let (mut said, mut buffer) = (String::new(), [0; 200]);
///     for node in sleeper.nodes() {
///         if let SleeperKind::Value(SleeperValue::String(text)) | SleeperKind::Tag(text) = node.kind {
///             said += sleeper.text(text, &mut buffer)?;
///             said += "|";
///         }
///     }
///     Ok(said)
/// }
/// assert_eq!(said(bytes)?, "Good evening.|tech|Tech:lead 3| tech:lead 3|tech:lead 3|Sleep well.|");
/// assert_eq!(said(bytes)?, said(other_notes)?);
/// # Ok::<(), Refusal>(())
/// ```
///
/// There is no way from here to a place in the image:
///
/// ```compile_fail,E0616
/// # let bytes = include_bytes!(concat!(env!("CARGO_MANIFEST_DIR"), "/../../samples/note-one.image"));
/// # let mut work = vec![0; story_image::sleeper_load_words(bytes)];
/// let sleeper = story_image::Sleeper::load(bytes, &mut work).unwrap();
/// let bytes = sleeper.bytes; // refused by the compiler
/// ```
#[derive(Clone, Copy)]
pub struct Sleeper<'a> {
    bytes: &'a [u8],
    /// The view's words, as the library takes them: the ink version, then how many entries each section has, of the
    /// payload bytes.
    words: [u32; Sleeper::WORDS],
}

/// How many work words [`Sleeper::load`] takes: as [`load_words`](crate::load_words).
pub fn sleeper_load_words(bytes: &[u8]) -> usize {
    // SAFETY: the slice lives through the call.
    unsafe { ffi::story_image_sleeper_load_words(bytes.as_ptr(), bytes.len()) }
}

impl core::fmt::Debug for Sleeper<'_> {
    fn fmt(&self, f: &mut core::fmt::Formatter<'_>) -> core::fmt::Result {
        let (ink_version, nodes) = (self.ink_version(), self.node_count());
        f.debug_struct("Sleeper").field("ink_version", &ink_version).field("nodes", &nodes).finish_non_exhaustive()
    }
}

/// Texts as what they are asked for by: their two words are here a kind of [`Text::words`] and a node.
struct Asked;

impl Parts for Asked {
    type Text = Text;
    type List = u32;

    #[inline]
    fn text(&self, kind: u32, node: u32) -> Text {
        if kind == OF_VARIABLE { Text::Variable(node) } else { Text::Node(node) }
    }

    #[inline]
    fn list(&self, node: u32, _: u32, _: u32) -> Option<u32> {
        Some(node)
    }
}

impl<'a> Sleeper<'a> {
    const WORDS: usize = 8;

    /// Tests the whole image, as [`Image::load`](crate::Image::load) does, with the same numbers.
    pub fn load(bytes: &'a [u8], work: &mut [u32]) -> Result<Self, Refusal> {
        let words = load(ffi::story_image_sleeper_load, bytes, work)?;
        Ok(Sleeper { bytes, words })
    }

    /// Of an accepted image whose view is known.
    pub(crate) fn of_view(bytes: &'a [u8], view: &View) -> Self {
        let View { nodes, children, named, definitions, items, index, payload, .. } = *view;
        let mut words = [view.ink_version; Sleeper::WORDS];
        for (word, section) in words[1..].iter_mut().zip([nodes, children, named, definitions, items, index, payload]) {
            *word = section.count;
        }
        Sleeper { bytes, words }
    }

    pub fn ink_version(&self) -> u32 {
        self.words[0]
    }

    pub fn node_count(&self) -> u32 {
        self.words[1]
    }

    /// Of a node below the node count there is a view.
    pub fn node_view(&self, node: u32) -> Option<SleeperNode> {
        ask!(self, ffi::story_image_sleeper_node_view, node => |words| {
            let &[parent, place, tag, text, variable, target, value, flags] = words;
            let kind = |given, kind| if given == 0 { NONE } else { kind };
            let (text, variable) = (kind(text, OF_NODE), kind(variable, OF_VARIABLE));
            node::view_of(node, &[parent, place, tag, text, node, variable, node, target, value, flags], &Asked)
        })
    }

    /// All nodes, by number.
    pub fn nodes(&self) -> impl Iterator<Item = SleeperNode> + '_ {
        (0..self.node_count()).map_while(|node| self.node_view(node))
    }

    /// Copies a text to the start of the buffer. Or 18, there is no such text ([`Refusal::NOT_FOUND`]); then 23, the
    /// buffer is too short ([`Refusal::NO_ROOM`]): with both it stays as it was.
    ///
    /// ```
    /// use story_image::{Refusal, Sleeper, Text, sleeper_load_words};
    ///
    /// # let bytes = include_bytes!(concat!(env!("CARGO_MANIFEST_DIR"), "/../../samples/note-two.image"));
    /// # let sleeper = Sleeper::load(bytes, &mut vec![0; sleeper_load_words(bytes)])?;
    /// let mut buffer = [0; 13];
    /// assert_eq!(sleeper.text(Text::Node(2), &mut buffer), Ok("Good evening."));
    /// assert_eq!(sleeper.text(Text::Node(2), &mut buffer[..12]), Err(Refusal::NO_ROOM));
    /// assert_eq!(sleeper.text_length(Text::Node(2)), Some(13));
    /// // node 1 is a note
    /// assert_eq!(sleeper.text(Text::Node(1), &mut buffer), Err(Refusal::NOT_FOUND));
    /// assert_eq!(sleeper.text_length(Text::Node(1)), None);
    /// # Ok::<(), Refusal>(())
    /// ```
    pub fn text<'b>(&self, which: Text, buffer: &'b mut [u8]) -> Result<&'b str, Refusal> {
        let ([kind, a, b], mut size) = (which.words(), 0);
        // SAFETY: the slices live through the call, and buffer and size, which alone are written, are borrowed alone.
        Refusal::of(unsafe {
            ffi::story_image_sleeper_text(
                self.bytes.as_ptr(),
                self.bytes.len(),
                self.words.as_ptr(),
                self.words.len(),
                kind,
                a,
                b,
                buffer.as_mut_ptr(),
                buffer.len(),
                &mut size,
                1,
            )
        })?;
        // SAFETY: a load accepts the bytes only if every text is UTF-8, and the bytes, which are borrowed since, are
        // the same; so many of the buffer's first bytes are now that text.
        Ok(unsafe { core::str::from_utf8_unchecked(&buffer[..size as usize]) })
    }

    /// The length of a text in bytes; nothing where there is no such text.
    pub fn text_length(&self, which: Text) -> Option<u32> {
        let [kind, a, b] = which.words();
        ask!(self, ffi::story_image_sleeper_text_length, kind, a, b => word)
    }

    /// The number of parent steps from a node to node 0, as [`Image::depth`](crate::Image::depth).
    pub fn depth(&self, node: u32) -> Option<u32> {
        ask!(self, ffi::story_image_sleeper_depth, node => word)
    }

    /// How many ordered children a container has, notes among them; nothing for another node.
    pub fn child_count(&self, node: u32) -> Option<u32> {
        ask!(self, ffi::story_image_sleeper_child_count, node => word)
    }

    pub fn child_at(&self, node: u32, index: u32) -> Option<u32> {
        ask!(self, ffi::story_image_sleeper_child_at, node, index => word)
    }

    /// The ordered children of a container; none of another node.
    pub fn children(&self, node: u32) -> impl Iterator<Item = u32> + '_ {
        (0..self.child_count(node).unwrap_or(0)).map_while(move |index| self.child_at(node, index))
    }

    /// How many named children a container has; nothing for another node.
    pub fn named_child_count(&self, node: u32) -> Option<u32> {
        ask!(self, ffi::story_image_sleeper_named_child_count, node => word)
    }

    /// The node of a named child; [`Text::NamedChild`] is its name.
    pub fn named_child_at(&self, node: u32, index: u32) -> Option<u32> {
        ask!(self, ffi::story_image_sleeper_named_child_at, node, index => word)
    }

    /// The nodes of a container's named children, in the order of their names.
    ///
    /// ```
    /// # use story_image::{Refusal, Sleeper, Text, sleeper_load_words};
    /// # let bytes = include_bytes!(concat!(env!("CARGO_MANIFEST_DIR"), "/../../samples/note-one.image"));
    /// # let sleeper = Sleeper::load(bytes, &mut vec![0; sleeper_load_words(bytes)])?;
    /// let mut buffer = [0; 100];
    /// for (index, child) in sleeper.named_children(0).enumerate() {
    ///     let name = sleeper.text(Text::NamedChild(0, index as u32), &mut buffer)?;
    ///     assert_eq!(sleeper.find_named_child(0, name), Some(child));
    /// }
    /// # Ok::<(), Refusal>(())
    /// ```
    pub fn named_children(&self, node: u32) -> impl Iterator<Item = u32> + '_ {
        (0..self.named_child_count(node).unwrap_or(0)).map_while(move |index| self.named_child_at(node, index))
    }

    /// The named child of a container that bears the name.
    pub fn find_named_child(&self, node: u32, name: impl AsRef<[u8]>) -> Option<u32> {
        let name = name.as_ref();
        ask!(self, ffi::story_image_sleeper_find_named_child, node, name.as_ptr(), name.len() => word)
    }

    /// How many items the list value has that a node is; nothing for another node.
    pub fn list_item_count(&self, node: u32) -> Option<u32> {
        ask!(self, ffi::story_image_sleeper_list_item_count, node => word)
    }

    /// How many origins; [`Text::Origin`] is each.
    pub fn list_origin_count(&self, node: u32) -> Option<u32> {
        ask!(self, ffi::story_image_sleeper_list_origin_count, node => word)
    }

    /// Item `index` of the list value that a node is.
    pub fn list_entry(&self, node: u32, index: u32) -> Option<SleeperEntry> {
        ask!(self, ffi::story_image_sleeper_list_entry, node, index => |&[origin, value]| {
            let origin = (origin != 0).then_some(Text::EntryOrigin(node, index));
            Some(SleeperEntry { name: Text::EntryName(node, index), origin, value: value as i32 })
        })
    }

    /// The items of the list value that a node is, in the order of the image; none of another node.
    ///
    /// ```
    /// # use story_image::{Refusal, Sleeper, sleeper_load_words};
    /// # let bytes = include_bytes!(concat!(env!("CARGO_MANIFEST_DIR"), "/../../samples/note-one.image"));
    /// # let sleeper = Sleeper::load(bytes, &mut vec![0; sleeper_load_words(bytes)])?;
    /// let (mut origin, mut name) = ([0; 100], [0; 100]);
    /// for entry in sleeper.list_entries(7) {
    ///     assert_eq!(sleeper.text(entry.origin.unwrap(), &mut origin)?, "lamp");
    ///     assert_eq!(sleeper.text(entry.name, &mut name)?, "red");
    ///     assert_eq!(entry.value, 3);
    /// }
    /// assert_eq!(sleeper.list_item_count(7), Some(1));
    /// # Ok::<(), Refusal>(())
    /// ```
    pub fn list_entries(&self, node: u32) -> impl Iterator<Item = SleeperEntry> + '_ {
        (0..self.list_item_count(node).unwrap_or(0)).map_while(move |index| self.list_entry(node, index))
    }

    /// How many list definitions there are; [`Text::Definition`] is the name of each.
    pub fn definition_count(&self) -> u32 {
        ask!(self, ffi::story_image_sleeper_definition_count => word).unwrap_or(0)
    }

    /// How many items a definition has.
    pub fn definition_item_count(&self, index: u32) -> Option<u32> {
        ask!(self, ffi::story_image_sleeper_definition, index => word)
    }

    /// The first item of a definition among the items of all.
    pub fn definition_first_item(&self, index: u32) -> Option<u32> {
        ask!(self, ffi::story_image_sleeper_definition_first_item, index => word)
    }

    /// The value of an item of a definition, counted from its first; [`Text::DefinitionItem`] is its name.
    pub fn definition_item(&self, index: u32, item: u32) -> Option<i32> {
        ask!(self, ffi::story_image_sleeper_definition_item, index, item => word).map(|value| value as i32)
    }

    /// The item that a name means, and how many definitions' items were searched, as
    /// [`Image::list_item`](crate::Image::list_item); [`Text::Item`] is the item's name.
    ///
    /// ```
    /// # use story_image::{Refusal, Sleeper, Text, sleeper_load_words};
    /// # let bytes = include_bytes!(concat!(env!("CARGO_MANIFEST_DIR"), "/../../samples/note-one.image"));
    /// # let sleeper = Sleeper::load(bytes, &mut vec![0; sleeper_load_words(bytes)])?;
    /// let item = sleeper.list_item("lamp.red").item.unwrap();
    /// assert_eq!(sleeper.text(Text::Item(item.item), &mut [0; 100])?, "red");
    /// assert_eq!(item.value, 3);
    /// # Ok::<(), Refusal>(())
    /// ```
    pub fn list_item(&self, name: impl AsRef<[u8]>) -> ItemSearch {
        search(ffi::story_image_sleeper_find_list_item, self.bytes, &self.words, name.as_ref())
    }

    /// The node at the end of a path, as [`Image::resolve_path`](crate::Image::resolve_path).
    pub fn resolve_path(&self, origin: u32, relative: bool, path: &[Step<'_>]) -> Option<u32> {
        let walk = |at, relative, path: &[u32], names: &[u8]| {
            let (steps, length, names_length) = (path.as_ptr(), path.len(), names.len());
            let names = names.as_ptr();
            ask!(self, ffi::story_image_sleeper_resolve_path, at, relative, steps, length, names, names_length => word)
        };
        path::resolve(origin, relative, path, walk, |node| self.child_count(node).is_some())
    }
}
