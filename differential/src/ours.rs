//! Our libraries, through their Rust binding. What the technician's has beside the load is told by the features
//! `queries`, `write`, `targets` and `counts`.

#[cfg(feature = "counts")]
pub mod counts;
#[cfg(feature = "queries")]
mod queries;
mod sleeper;
#[cfg(feature = "targets")]
pub mod targets;
#[cfg(feature = "write")]
pub mod write;

use crate::library::sleeper::Sleeper;
use crate::library::{Counting, Library, Queries, Targets, View, Writer};
use story_image::{Image, NodeKindOf, ValueOf, raw};

pub struct Ours;

/// The texts of a node, in the order of its fields.
fn texts<T: Copy, L>(kind: &NodeKindOf<T, L>) -> Vec<T> {
    match *kind {
        NodeKindOf::Container { name, .. } => name.into_iter().collect(),
        NodeKindOf::Divert { path, variable_name, .. } => path.into_iter().chain(variable_name).collect(),
        NodeKindOf::Tag(text)
        | NodeKindOf::Value(ValueOf::String(text) | ValueOf::DivertTarget(text))
        | NodeKindOf::Value(ValueOf::VariablePointer { name: text, .. })
        | NodeKindOf::VariableAssignment { name: text, .. }
        | NodeKindOf::VariableReference { name: text, .. } => vec![text],
        _ => vec![],
    }
}

/// Sees of an accepted image that the wrapper's texts are those parts of the bytes that the library names, and UTF-8; of
/// the first nodes, named children, definitions and items.
fn texts_agree(image: &Image<'_>) {
    let raw = image.raw();
    let same = |text: &str, place| {
        assert_eq!(raw.text(place), Some(text.as_bytes()));
        assert!(std::str::from_utf8(text.as_bytes()).is_ok());
    };
    for node in 0..image.node_count().min(40) {
        let (view, placed) = (image.node_view(node).unwrap(), raw.node_view(node).unwrap());
        let (shown, places) = (texts(&view.kind), texts(&placed.kind));
        assert_eq!(shown.len(), places.len());
        shown.into_iter().zip(places).for_each(|(text, place)| same(text, place));
        for (index, child) in (0..).zip(image.named_children(node)).take(10) {
            same(child.name, raw.named_child_at(node, index).unwrap().name);
        }
        if let (NodeKindOf::Value(ValueOf::List(list)), NodeKindOf::Value(ValueOf::List(place))) =
            (view.kind, placed.kind)
        {
            for (index, item) in (0..).zip(list.items()) {
                let entry = raw.list_entry(place, index).unwrap();
                same(item.name, entry.name);
                item.origin.into_iter().zip(entry.origin).for_each(|(text, place)| same(text, place));
            }
            for (index, origin) in (0..).zip(list.origins()) {
                same(origin, raw.list_origin(place, index).unwrap());
            }
        }
    }
    for (index, definition) in (0..).zip(image.definitions()).take(20) {
        same(definition.name, raw.definition(index).unwrap().name);
        for (item, (name, _)) in (0..).zip(image.definition_items(index)).take(20) {
            same(name, raw.definition_item(index, item).unwrap().name);
        }
    }
}

/// Sees of an accepted image that the wrapper's reader for the sleeper shows the first nodes as its technician's does, a
/// note as void.
fn sleeper_agrees(image: &Image<'_>) {
    let sleeper = image.sleeper();
    for node in 0..image.node_count().min(40) {
        let (shown, seen) = (image.node_view(node).unwrap(), sleeper.node_view(node).unwrap());
        assert_eq!((seen.parent, seen.child_index), (shown.parent, shown.child_index));
        if matches!(shown.kind, NodeKindOf::Tag(text) if text.starts_with("tech:")) {
            assert_eq!(seen.kind, NodeKindOf::Void);
            continue;
        }
        let (shown, seen) = (texts(&shown.kind), texts(&seen.kind));
        assert_eq!(shown.len(), seen.len());
        for (text, which) in shown.into_iter().zip(seen) {
            let mut buffer = vec![0; text.len()];
            assert_eq!(sleeper.text(which, &mut buffer), Ok(text));
            assert_eq!(sleeper.text_length(which), Some(text.len() as u32));
        }
    }
}

impl Library for Ours {
    fn load(&self, bytes: &[u8], work: &mut [u32]) -> (u32, View) {
        match Image::load(bytes, work) {
            Ok(image) => {
                texts_agree(&image);
                sleeper_agrees(&image);
                #[cfg(feature = "counts")]
                counts::agrees(&image);
                (0, image.view().words())
            }
            Err(refusal) => (refusal.0, [0; 17]),
        }
    }

    #[cfg(feature = "queries")]
    fn queries(&self) -> Option<&dyn Queries> {
        Some(self)
    }

    #[cfg(not(feature = "queries"))]
    fn queries(&self) -> Option<&dyn Queries> {
        None
    }

    #[cfg(feature = "write")]
    fn writer(&self) -> Option<&dyn Writer> {
        Some(self)
    }

    #[cfg(not(feature = "write"))]
    fn writer(&self) -> Option<&dyn Writer> {
        None
    }

    #[cfg(feature = "targets")]
    fn targets(&self) -> Option<&dyn Targets> {
        Some(self)
    }

    #[cfg(not(feature = "targets"))]
    fn targets(&self) -> Option<&dyn Targets> {
        None
    }

    #[cfg(feature = "counts")]
    fn counting(&self) -> Option<&dyn Counting> {
        Some(self)
    }

    #[cfg(not(feature = "counts"))]
    fn counting(&self) -> Option<&dyn Counting> {
        None
    }

    fn sleeper<'a>(&'a self, bytes: &'a [u8]) -> Option<Box<dyn Sleeper + 'a>> {
        Some(Box::new(sleeper::Reader(bytes)))
    }

    fn header_words(&self, bytes: &[u8]) -> [Option<u32>; 3] {
        [raw::total_length(bytes), raw::strings_length(bytes), raw::checksum(bytes)]
    }
}
