//! List values and definitions.

use crate::raw::{self, ListCounts, TextPlace};

/// A list value: items and origins.
#[derive(Clone, Copy)]
pub struct ListView<'a> {
    pub(crate) payload: &'a [u8],
    pub(crate) strings: &'a [u8],
    pub(crate) counts: ListCounts,
}

/// An item of a list value.
#[derive(Clone, Copy, Debug, PartialEq, Eq)]
pub struct ListEntryView<'a> {
    pub origin: Option<&'a str>,
    pub name: &'a str,
    pub value: i32,
}

/// A list definition: its name, and how many items it has.
#[derive(Clone, Copy, Debug, PartialEq, Eq)]
pub struct DefinitionView<'a> {
    pub name: &'a str,
    pub items: u32,
}

impl<'a> ListView<'a> {
    fn text(&self, text: TextPlace) -> &'a str {
        let start = text.offset as usize;
        let text = self.strings.get(start..start + text.length as usize).unwrap_or(&[]);
        // SAFETY: only an `Image` makes a list, and of an accepted image every text of a list is UTF-8.
        unsafe { core::str::from_utf8_unchecked(text) }
    }

    pub fn item_count(&self) -> u32 {
        self.counts.items
    }

    pub fn origin_count(&self) -> u32 {
        self.counts.origins
    }

    pub fn item(&self, index: u32) -> Option<ListEntryView<'a>> {
        let entry = raw::list_entry(self.payload, self.strings, index)?;
        let origin = entry.origin.map(|origin| self.text(origin));
        Some(ListEntryView { origin, name: self.text(entry.name), value: entry.value })
    }

    pub fn origin(&self, index: u32) -> Option<&'a str> {
        raw::list_origin(self.payload, self.strings, index).map(|origin| self.text(origin))
    }

    /// The items, in the order of the image.
    ///
    /// ```
    /// # use story_image::{Image, load_words};
    /// # let bytes = include_bytes!(concat!(env!("CARGO_MANIFEST_DIR"), "/../../samples/guide.image"));
    /// # let image = Image::load(bytes, &mut vec![0; load_words(bytes)])?;
    /// let list = (0..image.node_count()).find_map(|node| image.list(node)).unwrap();
    /// for item in list.items() {
    ///     println!("{}.{} = {}", item.origin.unwrap_or("?"), item.name, item.value);
    /// }
    /// assert!(list.items().count() > 0);
    /// # Ok::<(), story_image::Refusal>(())
    /// ```
    pub fn items(&self) -> impl Iterator<Item = ListEntryView<'a>> + use<'a> {
        let list = *self;
        (0..list.item_count()).map_while(move |index| list.item(index))
    }

    pub fn origins(&self) -> impl Iterator<Item = &'a str> + use<'a> {
        let list = *self;
        (0..list.origin_count()).map_while(move |index| list.origin(index))
    }
}

impl PartialEq for ListView<'_> {
    fn eq(&self, other: &Self) -> bool {
        self.items().eq(other.items()) && self.origins().eq(other.origins())
    }
}

impl Eq for ListView<'_> {}

impl core::fmt::Debug for ListView<'_> {
    fn fmt(&self, f: &mut core::fmt::Formatter<'_>) -> core::fmt::Result {
        f.debug_list().entries(self.items()).finish()
    }
}
