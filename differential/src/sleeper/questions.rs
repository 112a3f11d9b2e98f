//! What the sleeper's reader is asked of an image: every call, of all that is there and of numbers past its end.

use crate::asked::{self, Walk};
use crate::library::sleeper::{Ask, Which, text_of};
use crate::parts::NONE;
use crate::random::Random;
use crate::technician::Technician;
use crate::texts;

/// Nodes, children, entries, definitions and items that are asked of a large image.
const SOME: u32 = 40;

/// Walks of an image.
const WALKS: usize = 6;

/// Calls, and texts to be copied.
#[derive(Default)]
pub struct Questions {
    pub asks: Vec<Ask>,
    pub texts: Vec<Which>,
}

/// Some numbers below the count, the count itself and NONE.
fn numbers(count: u32) -> impl Iterator<Item = u32> {
    (0..count).step_by(1 + (count / SOME) as usize).take(SOME as usize + 1).chain([count, NONE])
}

/// The same where there is a count, else 0 alone.
fn numbers_if(count: Option<u32>) -> impl Iterator<Item = u32> {
    let all = if count.is_some() { usize::MAX } else { 1 };
    numbers(count.unwrap_or(0)).take(all)
}

impl Questions {
    /// Of an image of so many nodes and items.
    pub fn of(reader: &dyn Technician, nodes: u32, items: u32, random: &mut Random) -> Self {
        let mut questions = Questions::default();
        for node in numbers(nodes).chain([nodes.wrapping_add(1)]) {
            questions.node(reader, node, random);
        }
        questions.definitions(reader, random);
        for item in numbers(items) {
            questions.text(text_of::ITEM, item, random.word());
        }
        for _ in 0..WALKS {
            let walk = Walk::random(reader, nodes as usize, random);
            questions.asks.push(Ask::ResolvePath(walk));
        }
        let kind = *random.pick(&[text_of::KINDS, text_of::KINDS + 1, 256, NONE]);
        questions.text(kind, 0, 0);
        questions
    }

    fn text(&mut self, kind: u32, a: u32, b: u32) {
        self.texts.push(Which { kind, a, b });
        self.asks.push(Ask::TextLength(Which { kind, a, b }));
    }

    fn node(&mut self, reader: &dyn Technician, node: u32, random: &mut Random) {
        self.asks.extend([Ask::NodeView(node), Ask::Depth(node)]);
        self.asks.extend([Ask::ChildCount(node), Ask::NamedChildCount(node)]);
        self.asks.extend([Ask::ListItemCount(node), Ask::ListOriginCount(node)]);
        // the second number is not looked at
        self.text(text_of::NODE, node, random.word());
        self.text(text_of::VARIABLE, node, random.word());
        self.asks.extend(numbers_if(reader.child_count(node)).map(|index| Ask::ChildAt(node, index)));
        for index in numbers_if(reader.named_child_count(node)) {
            self.asks.push(Ask::NamedChildAt(node, index));
            self.text(text_of::NAMED_CHILD, node, index);
        }
        let names = asked::names(reader, node, random).into_iter().map(String::into_bytes);
        self.asks.extend(names.chain([b"tech:".to_vec()]).map(|name| Ask::FindNamedChild(node, name)));
        let counts = reader.list_counts(node);
        for index in numbers_if(counts.map(|[items, _]| items)) {
            self.asks.push(Ask::ListEntry(node, index));
            self.text(text_of::ENTRY_NAME, node, index);
            self.text(text_of::ENTRY_ORIGIN, node, index);
        }
        for index in numbers_if(counts.map(|[_, origins]| origins)) {
            self.text(text_of::ORIGIN, node, index);
        }
    }

    fn definitions(&mut self, reader: &dyn Technician, random: &mut Random) {
        self.asks.push(Ask::DefinitionCount);
        let mut names = vec![texts::name(random).into_bytes(), b" \t".to_vec(), b"\xff".to_vec(), vec![]];
        for index in numbers(reader.definition_count().unwrap_or(0)) {
            self.asks.extend([Ask::Definition(index), Ask::FirstItem(index)]);
            self.text(text_of::DEFINITION, index, random.word());
            let definition = reader.definition(index);
            for item in numbers_if(definition.map(|(_, items)| items)) {
                self.asks.push(Ask::DefinitionItem(index, item));
                self.text(text_of::DEFINITION_ITEM, index, item);
            }
            let origin = definition.map_or(&b"x"[..], |(name, _)| reader.text(name));
            let item = reader.definition_item(index, 0).map_or(&b"low"[..], |(name, _)| reader.text(name));
            names.extend([item.to_vec(), [origin, item].join(&b'.')]);
        }
        self.asks.extend(names.into_iter().map(Ask::FindListItem));
    }
}
