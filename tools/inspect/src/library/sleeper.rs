//! The sleeper's reader: an image without its notes to the technician, and without places; texts are copies.

use super::{DefinitionOf, ListOf, NodeOf, Reader};
use story_image::{SleeperEntry, Text};

/// An accepted image.
pub struct Sleeper<'a>(story_image::Sleeper<'a>);

impl<'a> Sleeper<'a> {
    pub(super) fn new(sleeper: story_image::Sleeper<'a>) -> Self {
        Sleeper(sleeper)
    }

    fn text(&self, which: Text) -> Option<String> {
        let mut buffer = vec![0; self.0.text_length(which)? as usize];
        self.0.text(which, &mut buffer).ok()?;
        String::from_utf8(buffer).ok()
    }

    /// The list value that a node is.
    fn list(&self, node: u32) -> Option<ListOf<String>> {
        let item = |entry: SleeperEntry| {
            Some((entry.origin.and_then(|origin| self.text(origin)), self.text(entry.name)?, entry.value))
        };
        let items = self.0.list_entries(node).map(item).collect::<Option<_>>()?;
        let origins = (0..self.0.list_origin_count(node)?).map(|index| self.text(Text::Origin(node, index)));
        Some(ListOf { items, origins: origins.collect::<Option<_>>()? })
    }
}

impl Reader for Sleeper<'_> {
    type Text = String;

    fn node_count(&self) -> u32 {
        self.0.node_count()
    }

    fn node(&self, node: u32) -> Option<NodeOf<String>> {
        NodeOf::of(self.0.node_view(node)?, |which| self.text(which), |node| self.list(node))
    }

    fn depth(&self, node: u32) -> Option<u32> {
        self.0.depth(node)
    }

    fn children(&self, node: u32) -> Vec<u32> {
        self.0.children(node).collect()
    }

    fn named_children(&self, node: u32) -> Vec<(String, u32)> {
        let named = |(index, child)| Some((self.text(Text::NamedChild(node, index))?, child));
        (0..).zip(self.0.named_children(node)).filter_map(named).collect()
    }

    fn definitions(&self) -> Vec<DefinitionOf<String>> {
        let item =
            |index, item| Some((self.text(Text::DefinitionItem(index, item))?, self.0.definition_item(index, item)?));
        let definition = |index| {
            let items = (0..self.0.definition_item_count(index)?).filter_map(|k| item(index, k)).collect();
            Some(DefinitionOf { name: self.text(Text::Definition(index))?, items })
        };
        (0..self.0.definition_count()).filter_map(definition).collect()
    }
}
