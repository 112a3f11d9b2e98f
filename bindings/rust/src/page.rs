//! A page: many nodes of an image in one call.

use crate::image::{Image, NodeView};
use crate::node::optional;

/// A node's words in a page, as the image holds them: parent, place, kind, f0 to f6, then two zeros. For a number
/// without a view: 18 and eleven zeros.
#[repr(transparent)]
#[derive(Clone, Copy, Debug, Default, PartialEq, Eq, Hash)]
pub struct Slot(pub [u32; Slot::WORDS]);

impl Slot {
    /// Words of a slot.
    pub const WORDS: usize = 12;

    /// Whether the number has a view. The kind tells it: no kind is 0.
    pub fn has_view(&self) -> bool {
        self.kind() != 0
    }

    /// Nothing for the root; of a slot without a view it says nothing.
    pub fn parent(&self) -> Option<u32> {
        optional(self.0[0])
    }

    /// The index among the parent's ordered children; of a container that is only a named child it says nothing.
    pub fn place(&self) -> Option<u32> {
        optional(self.0[1])
    }

    /// The tag of docs/FORMAT.md; 0 for a number without a view.
    pub fn kind(&self) -> u32 {
        self.0[2]
    }

    /// f0 to f6: docs/FORMAT.md has the fields of each kind.
    pub fn fields(&self) -> &[u32] {
        &self.0[3..10]
    }

    /// The words of slots, one behind the other.
    pub(crate) fn words_mut(slots: &mut [Slot]) -> &mut [u32] {
        // SAFETY: a slot is its words, so a slice of slots has the layout of a slice of arrays of words.
        let arrays =
            unsafe { core::slice::from_raw_parts_mut(slots.as_mut_ptr().cast::<[u32; Slot::WORDS]>(), slots.len()) };
        arrays.as_flattened_mut()
    }
}

/// The nodes of a page, by their order on it. [`Image::page`] makes it, and borrows the slots as long as it is used, so
/// that they stay as they were written.
///
/// ```compile_fail,E0506
/// # use story_image::{Image, Slot, load_words};
/// # let bytes = include_bytes!(concat!(env!("CARGO_MANIFEST_DIR"), "/../../samples/step.image"));
/// # let image = Image::load(bytes, &mut vec![0; load_words(bytes)])?;
/// let mut slots = [Slot::default(); 1];
/// let page = image.page(&[1], &mut slots)?;
/// slots[0] = Slot::default(); // refused by the compiler
/// assert!(page.node_view(0).is_some());
/// # Ok::<(), story_image::Refusal>(())
/// ```
#[derive(Clone, Copy, Debug)]
pub struct Page<'a, 'p> {
    image: Image<'a>,
    numbers: &'p [u32],
    slots: &'p [Slot],
}

impl<'a, 'p> Page<'a, 'p> {
    pub(crate) fn new(image: Image<'a>, numbers: &'p [u32], slots: &'p [Slot]) -> Self {
        Page { image, numbers, slots }
    }

    /// The numbers that were asked for.
    pub fn numbers(&self) -> &'p [u32] {
        self.numbers
    }

    /// A slot for each number.
    pub fn slots(&self) -> &'p [Slot] {
        self.slots
    }

    /// The view of the page's node at `index`. It is what [`Image::node_view`] gives for its number, and is asked so: the
    /// view of the slot's words is proved to be the same, and takes longer.
    pub fn node_view(&self, index: usize) -> Option<NodeView<'a>> {
        self.image.node_view(*self.numbers.get(index)?)
    }

    /// The number and the view of each node of the page, in order.
    pub fn nodes(&self) -> impl Iterator<Item = (u32, Option<NodeView<'a>>)> + '_ {
        self.numbers.iter().map(|&node| (node, self.image.node_view(node)))
    }
}
