//! An accepted image, and what a player asks of it.

use crate::ask;
use crate::counts::TargetCounts;
use crate::ffi;
use crate::lists::{DefinitionView, ListView};
use crate::node::{NodeKindOf, NodeViewOf, Parts, ValueOf};
use crate::page::{Page, Slot};
use crate::path::Step;
use crate::raw::{self, ItemSearch, ListItem, Queries, TextPlace};
use crate::refusal::Refusal;
use crate::sleeper::Sleeper;
use crate::view::View;

/// A node of an [`Image`].
pub type NodeView<'a> = NodeViewOf<&'a str, ListView<'a>>;
/// The kind of a node of an [`Image`].
pub type NodeKindView<'a> = NodeKindOf<&'a str, ListView<'a>>;
/// A value of an [`Image`].
pub type ValueView<'a> = ValueOf<&'a str, ListView<'a>>;

/// A named child of a container. The name is that of the entry; the child's own name may be another.
#[derive(Clone, Copy, Debug, PartialEq, Eq)]
pub struct NamedChildView<'a> {
    pub name: &'a str,
    pub node: u32,
}

/// An accepted image. Texts are parts of its bytes.
///
/// ```
/// use story_image::{Image, NodeKindView, Step, ValueView, load_words};
///
/// # let bytes = include_bytes!(concat!(env!("CARGO_MANIFEST_DIR"), "/../../samples/step.image"));
/// let mut work = vec![0; load_words(bytes)];
/// let image = Image::load(bytes, &mut work)?;
/// for node in image.nodes() {
///     if let NodeKindView::Value(ValueView::String(text)) = node.kind {
///         println!("{text}");
///     }
/// }
/// let first = image.children(0).next().unwrap();
/// assert_eq!(image.node_view(first).unwrap().kind, NodeKindView::Value(ValueView::String("Good evening.")));
/// assert_eq!(image.resolve_path(0, false, &[Step::Index(0)]), Some(first));
/// # Ok::<(), story_image::Refusal>(())
/// ```
#[derive(Clone, Copy)]
pub struct Image<'a> {
    asked: Queries<'a>,
    strings: &'a [u8],
}

/// How many work words a load of these bytes takes: nodes + children + named entries + 1. Never more than a quarter of the
/// bytes, whatever a header says; 0 where a load refuses the header, and so takes none.
///
/// ```
/// use story_image::load_words;
///
/// # let bytes = include_bytes!(concat!(env!("CARGO_MANIFEST_DIR"), "/../../samples/smallest.image"));
/// assert_eq!(load_words(bytes), 2);
/// // a header that asks for more than there can be
/// assert_eq!(load_words(&[255; 88]), 0);
/// ```
pub fn load_words(bytes: &[u8]) -> usize {
    // SAFETY: the slice lives through the call.
    unsafe { ffi::story_image_load_words(bytes.as_ptr(), bytes.len()) }
}

impl core::fmt::Debug for Image<'_> {
    fn fmt(&self, f: &mut core::fmt::Formatter<'_>) -> core::fmt::Result {
        f.debug_struct("Image").field("bytes", &self.bytes().len()).field("view", &self.view()).finish()
    }
}

impl<'a> Parts for Image<'a> {
    type Text = &'a str;
    type List = ListView<'a>;

    #[inline]
    fn text(&self, offset: u32, length: u32) -> &'a str {
        let start = offset as usize;
        let text = self.strings.get(start..start + length as usize).unwrap_or(&[]);
        // SAFETY: a load accepts the bytes only if every text of a node, a list, an entry and a definition is UTF-8, and
        // the bytes, which are borrowed since, are the same.
        unsafe { core::str::from_utf8_unchecked(text) }
    }

    #[inline]
    fn list(&self, node: u32, _: u32, _: u32) -> Option<ListView<'a>> {
        let (start, length) = self.asked.list_payload(node)?;
        let payload = self.bytes().get(start..start + length)?;
        Some(ListView { payload, strings: self.strings, counts: self.asked.list_counts(node)? })
    }
}

impl<'a> Image<'a> {
    /// Tests the whole image. On return the work words that were needed are 0, or all are as they were (numbers 1 to 7).
    /// The path index of an accepted image has exactly one entry for each container, its canonical path.
    pub fn load(bytes: &'a [u8], work: &mut [u32]) -> Result<Self, Refusal> {
        let words = ask::load(ffi::story_image_load, bytes, work)?;
        let asked = Queries::with_words(bytes, words);
        Ok(Image { asked, strings: asked.strings() })
    }

    pub fn bytes(&self) -> &'a [u8] {
        self.asked.bytes()
    }

    /// The ink version, and where the sections lie.
    pub fn view(&self) -> View {
        self.asked.view()
    }

    /// The same queries with texts and lists by their places.
    pub fn raw(&self) -> &Queries<'a> {
        &self.asked
    }

    /// The same image as the sleeper's reader sees it. It is not loaded again.
    ///
    /// ```
    /// # use story_image::{Image, NodeKindOf, Refusal, Text, load_words};
    /// # let bytes = include_bytes!(concat!(env!("CARGO_MANIFEST_DIR"), "/../../samples/note-one.image"));
    /// # let image = Image::load(bytes, &mut vec![0; load_words(bytes)])?;
    /// assert_eq!(image.node_view(1).unwrap().kind, NodeKindOf::Tag("tech:Good evening."));
    /// let sleeper = image.sleeper();
    /// assert_eq!(sleeper.node_view(1).unwrap().kind, NodeKindOf::Void);
    /// assert_eq!(sleeper.text(Text::Node(1), &mut [0; 40]), Err(Refusal::NOT_FOUND));
    /// # Ok::<(), Refusal>(())
    /// ```
    pub fn sleeper(&self) -> Sleeper<'a> {
        Sleeper::of_view(self.bytes(), &self.view())
    }

    /// The total length of the image, in bytes. This, [`strings_length`](Self::strings_length) and
    /// [`checksum`](Self::checksum) are the technician's: the sleeper's reader tells none of them.
    ///
    /// ```
    /// # use story_image::{Image, load_words};
    /// # let bytes = include_bytes!(concat!(env!("CARGO_MANIFEST_DIR"), "/../../samples/step.image"));
    /// # let image = Image::load(bytes, &mut vec![0; load_words(bytes)])?;
    /// assert_eq!(image.total_length() as usize, bytes.len());
    /// assert_eq!(image.strings_length(), image.view().strings.count);
    /// assert_eq!(image.checksum().to_le_bytes(), bytes[84..88]);
    /// # Ok::<(), story_image::Refusal>(())
    /// ```
    pub fn total_length(&self) -> u32 {
        raw::total_length(self.bytes()).unwrap_or(0)
    }

    /// The length of the string section, in bytes.
    pub fn strings_length(&self) -> u32 {
        raw::strings_length(self.bytes()).unwrap_or(0)
    }

    /// The CRC-32 of all bytes but the checksum's own.
    pub fn checksum(&self) -> u32 {
        raw::checksum(self.bytes()).unwrap_or(0)
    }

    fn place(&self, text: TextPlace) -> &'a str {
        Parts::text(self, text.offset, text.length)
    }

    pub fn node_count(&self) -> u32 {
        self.view().nodes.count
    }

    /// Of a node below the node count there is a view.
    pub fn node_view(&self, node: u32) -> Option<NodeView<'a>> {
        self.asked.node_view_with(node, self)
    }

    /// All nodes, by number.
    pub fn nodes(&self) -> impl Iterator<Item = NodeView<'a>> + '_ {
        (0..self.node_count()).map_while(|node| self.node_view(node))
    }

    /// Many nodes in one call: a slot for each number, in their order. Numbers may repeat; one that is no node has a
    /// slot without a view. Slots past the numbers stay as they were. With fewer slots than numbers: 24
    /// ([`Refusal::TOO_FEW_SLOTS`]), and none is written.
    ///
    /// ```
    /// use story_image::{Image, Refusal, Slot, load_words};
    ///
    /// # let bytes = include_bytes!(concat!(env!("CARGO_MANIFEST_DIR"), "/../../samples/step.image"));
    /// # let image = Image::load(bytes, &mut vec![0; load_words(bytes)])?;
    /// let screen: Vec<u32> = (0..40).collect();
    /// let mut slots = [Slot::default(); 40];
    /// let page = image.page(&screen, &mut slots)?;
    /// for (node, view) in page.nodes() {
    ///     assert_eq!(view, image.node_view(node));
    /// }
    /// assert_eq!(image.page(&screen, &mut slots[..39]).unwrap_err(), Refusal::TOO_FEW_SLOTS);
    /// # Ok::<(), story_image::Refusal>(())
    /// ```
    pub fn page<'p>(&self, numbers: &'p [u32], slots: &'p mut [Slot]) -> Result<Page<'a, 'p>, Refusal> {
        self.asked.page(numbers, Slot::words_mut(slots))?;
        let slots: &'p [Slot] = slots;
        Ok(Page::new(*self, numbers, &slots[..numbers.len()]))
    }

    /// Of each node, how many choices, diverts, divert-target values and references name it: one word a node, in the
    /// lent words; those past the nodes stay as they were. Named entries and the path index do not count. The call goes
    /// once over the nodes. With fewer words than nodes: 27 ([`Refusal::BAD_SUMMARY`]), and none is written.
    ///
    /// ```
    /// use story_image::{Image, Refusal, load_words};
    ///
    /// # let bytes = include_bytes!(concat!(env!("CARGO_MANIFEST_DIR"), "/../../samples/step.image"));
    /// # let image = Image::load(bytes, &mut vec![0; load_words(bytes)])?;
    /// let mut words = vec![0; image.node_count() as usize];
    /// let counts = image.target_counts(&mut words)?;
    /// for (node, count) in counts.words().iter().enumerate() {
    ///     println!("{count} lead into node {node}");
    /// }
    /// assert_eq!(counts.of(image.node_count()), None);
    /// assert_eq!(image.target_counts(&mut []).unwrap_err(), Refusal::BAD_SUMMARY);
    /// # Ok::<(), story_image::Refusal>(())
    /// ```
    pub fn target_counts<'w>(&self, words: &'w mut [u32]) -> Result<TargetCounts<'w>, Refusal> {
        self.asked.count_targets(words)?;
        Ok(TargetCounts::new(&words[..self.node_count() as usize]))
    }

    /// The depth of a node: exactly the number of parent steps from it to node 0. Every node below the node count has one,
    /// smaller than the node count; nothing for a node outside. The call takes as many steps as it counts.
    ///
    /// ```
    /// # use story_image::{Image, load_words};
    /// # let bytes = include_bytes!(concat!(env!("CARGO_MANIFEST_DIR"), "/../../samples/step.image"));
    /// # let image = Image::load(bytes, &mut vec![0; load_words(bytes)])?;
    /// assert_eq!(image.depth(0), Some(0));
    /// for child in image.children(0) {
    ///     assert_eq!(image.depth(child), Some(1));
    /// }
    /// assert_eq!(image.depth(image.node_count()), None);
    /// # Ok::<(), story_image::Refusal>(())
    /// ```
    pub fn depth(&self, node: u32) -> Option<u32> {
        self.asked.depth(node)
    }

    /// How many ordered children a container has; nothing for another node.
    pub fn child_count(&self, node: u32) -> Option<u32> {
        self.asked.child_count(node)
    }

    pub fn child_at(&self, node: u32, index: u32) -> Option<u32> {
        self.asked.child_at(node, index)
    }

    /// The ordered children of a container; none of another node.
    pub fn children(&self, node: u32) -> impl Iterator<Item = u32> + '_ {
        (0..self.child_count(node).unwrap_or(0)).map_while(move |index| self.child_at(node, index))
    }

    /// How many named children a container has; nothing for another node.
    pub fn named_child_count(&self, node: u32) -> Option<u32> {
        self.asked.named_child_count(node)
    }

    pub fn named_child_at(&self, node: u32, index: u32) -> Option<NamedChildView<'a>> {
        let named = self.asked.named_child_at(node, index)?;
        Some(NamedChildView { name: self.place(named.name), node: named.node })
    }

    /// The named children of a container, in the order of their names.
    ///
    /// ```
    /// # use story_image::{Image, load_words};
    /// # let bytes = include_bytes!(concat!(env!("CARGO_MANIFEST_DIR"), "/../../samples/step.image"));
    /// # let image = Image::load(bytes, &mut vec![0; load_words(bytes)])?;
    /// for child in image.named_children(0) {
    ///     assert_eq!(image.find_named_child(0, child.name), Some(child.node));
    /// }
    /// # Ok::<(), story_image::Refusal>(())
    /// ```
    pub fn named_children(&self, node: u32) -> impl Iterator<Item = NamedChildView<'a>> + '_ {
        (0..self.named_child_count(node).unwrap_or(0)).map_while(move |index| self.named_child_at(node, index))
    }

    /// The named child of a container that bears the name.
    pub fn find_named_child(&self, node: u32, name: impl AsRef<[u8]>) -> Option<u32> {
        self.asked.find_named_child(node, name.as_ref())
    }

    /// The list value of a node, where it is one.
    pub fn list(&self, node: u32) -> Option<ListView<'a>> {
        Parts::list(self, node, 0, 0)
    }

    pub fn definition_count(&self) -> u32 {
        self.asked.definition_count().unwrap_or(0)
    }

    pub fn definition(&self, index: u32) -> Option<DefinitionView<'a>> {
        let definition = self.asked.definition(index)?;
        Some(DefinitionView { name: self.place(definition.name), items: definition.items })
    }

    /// Name and value of an item of a definition, counted from its first.
    pub fn definition_item(&self, index: u32, item: u32) -> Option<(&'a str, i32)> {
        let found = self.asked.definition_item(index, item)?;
        Some((self.place(found.name), found.value))
    }

    /// The list definitions, in the order of their names.
    pub fn definitions(&self) -> impl Iterator<Item = DefinitionView<'a>> + '_ {
        (0..self.definition_count()).map_while(|index| self.definition(index))
    }

    /// Names and values of a definition's items, in the order of their names.
    ///
    /// ```
    /// # use story_image::{Image, load_words};
    /// # let bytes = include_bytes!(concat!(env!("CARGO_MANIFEST_DIR"), "/../../samples/step.image"));
    /// # let image = Image::load(bytes, &mut vec![0; load_words(bytes)])?;
    /// for (index, definition) in image.definitions().enumerate() {
    ///     for (name, value) in image.definition_items(index as u32) {
    ///         let full = format!("{}.{name}", definition.name);
    ///         assert_eq!(image.list_item(full).item.unwrap().value, value);
    ///     }
    /// }
    /// # Ok::<(), story_image::Refusal>(())
    /// ```
    pub fn definition_items(&self, index: u32) -> impl Iterator<Item = (&'a str, i32)> + '_ {
        let items = self.definition(index).map_or(0, |definition| definition.items);
        (0..items).map_while(move |item| self.definition_item(index, item))
    }

    /// The item that a name means: what stands before the first dot is the definition's name; without a dot the last
    /// definition that has the item answers. Beside it the number of definitions whose items were searched.
    ///
    /// ```
    /// # use story_image::{Image, load_words};
    /// # let bytes = include_bytes!(concat!(env!("CARGO_MANIFEST_DIR"), "/../../samples/step.image"));
    /// # let image = Image::load(bytes, &mut vec![0; load_words(bytes)])?;
    /// let search = image.list_item("red");
    /// assert_eq!(search.item.map(|item| item.value), Some(3));
    /// assert_eq!(search.searched, 2);
    /// assert_eq!(image.list_item("lamp.red").searched, 1);
    /// assert_eq!(image.list_item("no such item").searched, image.definition_count());
    /// # Ok::<(), story_image::Refusal>(())
    /// ```
    pub fn list_item(&self, name: impl AsRef<[u8]>) -> ItemSearch {
        self.asked.list_item(name.as_ref())
    }

    /// Names of the definition and of the item that were found.
    pub fn list_item_names(&self, found: ListItem) -> Option<(&'a str, &'a str)> {
        let definition = self.definition(found.definition)?;
        let item = found.item.checked_sub(self.asked.first_item(found.definition)?)?;
        Some((definition.name, self.definition_item(found.definition, item)?.0))
    }

    /// The node at the end of a path. One that is not relative starts at the root. A relative one starts at the origin if
    /// that is a container; from any other node it starts at that node's parent and skips the first component, which
    /// stands for the step up.
    pub fn resolve_path(&self, origin: u32, relative: bool, path: &[Step<'_>]) -> Option<u32> {
        self.asked.resolve_path(origin, relative, path)
    }

    /// A walk along components as the library takes them: three words each, and the bytes of names.
    pub fn resolve_components(&self, origin: u32, relative: bool, path: &[u32], names: &[u8]) -> Option<u32> {
        self.asked.resolve_components(origin, relative, path, names)
    }
}
