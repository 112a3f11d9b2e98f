//! What the sleeper's reader must answer, by what the technician's shows: a note is void with its parent and place and
//! has no text; all else is the same, but that texts are bytes and have no place.

use crate::library::Looked;
use crate::library::sleeper::{Answer, Ask, Which, text_of};
use crate::names::kind;
use crate::parts::NONE;
use crate::record::node_words;
use crate::technician::{Technician, texts};
use reference::{Kind, NodeView};

/// What the text of a note begins with.
pub const PREFIX: &str = "tech:";

/// Whether a node of this kind, with this text, is a note.
pub type Rule = fn(&Kind, &[u8]) -> bool;

pub fn is_note(kind: &Kind, text: &[u8]) -> bool {
    matches!(kind, Kind::Tag(_)) && text.starts_with(PREFIX.as_bytes())
}

/// The technician's reader with notes hidden.
pub struct Seen<'a> {
    pub technician: &'a dyn Technician,
    pub is_note: Rule,
}

impl<'a> Seen<'a> {
    pub fn new(technician: &'a dyn Technician) -> Self {
        Seen { technician, is_note }
    }

    pub fn hides(&self, view: &NodeView) -> bool {
        let [text, _] = texts(&view.kind);
        (self.is_note)(&view.kind, text.map_or(&[], |place| self.technician.text(place)))
    }

    /// The view of a node, a note as void.
    fn view(&self, node: u32) -> Option<NodeView> {
        let mut view = self.technician.node_view(node)?;
        if self.hides(&view) {
            view.kind = Kind::Void;
        }
        Some(view)
    }

    pub fn answer(&self, ask: &Ask) -> Answer {
        let reader = self.technician;
        let one = |word: Option<u32>| Answer::of(word.map(|word| [word]));
        match ask {
            Ask::NodeView(node) => Answer::of(self.view(*node).map(|view| words(&view))),
            Ask::TextLength(which) => one(self.text(*which).map(|text| text.len() as u32)),
            Ask::Depth(node) => one(reader.depth(*node)),
            Ask::ChildCount(node) => one(reader.child_count(*node)),
            Ask::ChildAt(node, index) => one(reader.child_at(*node, *index)),
            Ask::NamedChildCount(node) => one(reader.named_child_count(*node)),
            Ask::NamedChildAt(node, index) => one(reader.named_child_at(*node, *index).map(|entry| entry.node)),
            Ask::FindNamedChild(node, name) => one(reader.find_named_child(*node, name)),
            Ask::ListItemCount(node) => one(reader.list_counts(*node).map(|counts| counts[0])),
            Ask::ListOriginCount(node) => one(reader.list_counts(*node).map(|counts| counts[1])),
            Ask::ListEntry(node, index) => {
                let entry = reader.list_entry(*node, *index);
                Answer::of(entry.map(|entry| [u32::from(entry.origin.is_some()), entry.value as u32]))
            }
            Ask::DefinitionCount => one(reader.definition_count()),
            Ask::Definition(index) => one(reader.definition(*index).map(|(_, items)| items)),
            Ask::FirstItem(index) => one(reader.first_item(*index)),
            Ask::DefinitionItem(index, item) => {
                one(reader.definition_item(*index, *item).map(|(_, value)| value as u32))
            }
            Ask::FindListItem(name) => looked(reader.list_item(name)),
            Ask::ResolvePath(walk) => one(reader.resolve_path(walk.origin, walk.relative, &walk.steps)),
        }
    }

    /// The bytes of a text.
    pub fn text(&self, Which { kind, a, b }: Which) -> Option<Vec<u8>> {
        let reader = self.technician;
        let place = match kind {
            text_of::NODE => texts(&self.view(a)?.kind)[0],
            text_of::VARIABLE => texts(&self.view(a)?.kind)[1],
            text_of::NAMED_CHILD => reader.named_child_at(a, b).map(|entry| entry.name),
            text_of::DEFINITION => reader.definition(a).map(|(name, _)| name),
            text_of::DEFINITION_ITEM => reader.definition_item(a, b).map(|(name, _)| name),
            text_of::ITEM => reader.item(a),
            text_of::ENTRY_NAME => return reader.list_entry(a, b).map(|entry| entry.name),
            text_of::ENTRY_ORIGIN => return reader.list_entry(a, b)?.origin,
            text_of::ORIGIN => return reader.list_origin(a, b),
            _ => None,
        };
        place.map(|place| reader.text(place).to_vec())
    }
}

/// The words of a view, with bits in the place of texts.
fn words(view: &NodeView) -> [u32; 8] {
    let [parent, place, tag, text, _, variable, _, target, value, flags] = node_words(view);
    let has = |offset: u32| u32::from(offset != NONE && tag != kind::LIST);
    [parent, place, tag, has(text), has(variable), target, value, flags]
}

/// The count is written with 18 too.
fn looked(looked: Looked) -> Answer {
    let item = looked.item.map(|found| [found.definition, found.item, found.value as u32]);
    let mut answer = Answer::of(item);
    answer.searched[0] = looked.searched;
    answer
}
