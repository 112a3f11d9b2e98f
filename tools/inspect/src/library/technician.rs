//! The technician's reader: an image as it is.

use super::{Definition, DefinitionOf, List, ListOf, NodeOf, Reader, Sleeper};
use story_image::raw::TextPlace;
use story_image::{ListView, NONE, Slot, kind};

/// An accepted image.
pub struct Image<'a>(story_image::Image<'a>);

/// What names a node.
#[derive(Clone, Copy, Debug, PartialEq, Eq, Hash)]
pub enum By {
    Choice,
    Divert,
    DivertTarget,
    ReadCount,
}

impl<'a> Image<'a> {
    pub(super) fn new(image: story_image::Image<'a>) -> Self {
        Image(image)
    }

    pub fn ink_version(&self) -> u32 {
        self.0.view().ink_version
    }

    /// The same image by the sleeper's reader.
    pub fn sleeper(&self) -> Sleeper<'a> {
        Sleeper::new(self.0.sleeper())
    }

    pub fn child(&self, node: u32, index: u32) -> Option<u32> {
        self.0.child_at(node, index)
    }

    /// The words of a node as the image holds them: parent, place, tag, f0 to f6, then zeros.
    fn slot(&self, node: u32) -> Option<[u32; Slot::WORDS]> {
        let mut slots = [Slot::default()];
        self.0.page(&[node], &mut slots).ok()?;
        slots[0].has_view().then_some(slots[0].0)
    }

    /// The node that a choice, a divert, a divert-target value or a read count names, and which of these names it.
    pub fn target(&self, node: u32) -> Option<(By, u32)> {
        let [_, _, tag, _, _, f2, _, f4, ..] = self.slot(node)?;
        let (by, target) = match tag {
            kind::CHOICE => (By::Choice, f2),
            kind::DIVERT => (By::Divert, f2),
            kind::DIVERT_TARGET => (By::DivertTarget, f2),
            kind::REFERENCE => (By::ReadCount, f4),
            _ => return None,
        };
        (target != NONE).then_some((by, target))
    }

    /// How many of these name each node.
    pub fn target_counts(&self) -> Option<Vec<u32>> {
        let mut counts = vec![0; self.0.node_count() as usize];
        self.0.target_counts(&mut counts).ok()?;
        Some(counts)
    }

    /// The path text of a choice, which its view leaves out.
    pub fn choice_path(&self, node: u32) -> Option<&'a str> {
        let [_, _, tag, offset, length, ..] = self.slot(node)?;
        let text = self.0.raw().text(TextPlace { offset, length }).filter(|_| tag == kind::CHOICE)?;
        std::str::from_utf8(text).ok()
    }
}

fn list(list: ListView<'_>) -> List<'_> {
    ListOf {
        items: list.items().map(|item| (item.origin, item.name, item.value)).collect(),
        origins: list.origins().collect(),
    }
}

impl<'a> Reader for Image<'a> {
    type Text = &'a str;

    fn node_count(&self) -> u32 {
        self.0.node_count()
    }

    fn node(&self, node: u32) -> Option<NodeOf<&'a str>> {
        NodeOf::of(self.0.node_view(node)?, Some, |held| Some(list(held)))
    }

    fn depth(&self, node: u32) -> Option<u32> {
        self.0.depth(node)
    }

    fn children(&self, node: u32) -> Vec<u32> {
        self.0.children(node).collect()
    }

    fn named_children(&self, node: u32) -> Vec<(&'a str, u32)> {
        self.0.named_children(node).map(|child| (child.name, child.node)).collect()
    }

    fn definitions(&self) -> Vec<Definition<'a>> {
        let items = |index| self.0.definition_items(index).collect();
        (0..)
            .zip(self.0.definitions())
            .map(|(index, found)| DefinitionOf { name: found.name, items: items(index) })
            .collect()
    }
}
