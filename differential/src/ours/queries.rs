//! Queries.

use super::Ours;
use crate::images::MARK;
use crate::library::{Entry, Found, Looked, Place, Queries, View};
use reference::{Kind, Named, NodeView, Step};
use story_image::raw::{self, ListPlace, TextPlace};
use story_image::{NodeKindOf, ValueOf, ffi};

fn asked<'a>(bytes: &'a [u8], view: &View) -> raw::Queries<'a> {
    raw::Queries::new(bytes, story_image::View::from(*view))
}

fn place(text: TextPlace) -> Place {
    (text.offset, text.length)
}

fn text(place: Place) -> TextPlace {
    TextPlace { offset: place.0, length: place.1 }
}

fn list(place: Place) -> ListPlace {
    ListPlace { offset: place.0, length: place.1 }
}

fn value_of(value: ValueOf<TextPlace, ListPlace>) -> Kind {
    match value {
        ValueOf::Bool(value) => Kind::Bool(value),
        ValueOf::Int(value) => Kind::Int(value),
        ValueOf::Float(value) => Kind::Float(value.to_bits()),
        ValueOf::String(text) => Kind::String(place(text)),
        ValueOf::List(list) => Kind::List((list.offset, list.length)),
        ValueOf::DivertTarget(path) => Kind::DivertTarget(place(path)),
        ValueOf::VariablePointer { name, context_index } => Kind::Pointer { name: place(name), context: context_index },
    }
}

fn kind_of(kind: NodeKindOf<TextPlace, ListPlace>) -> Kind {
    match kind {
        NodeKindOf::Container { count_flags, name } => Kind::Container { flags: count_flags, name: name.map(place) },
        NodeKindOf::ChoicePoint { flags, target } => Kind::Choice { flags, target },
        NodeKindOf::ControlCommand(command) => Kind::Command(command.number()),
        NodeKindOf::Divert {
            path,
            target,
            variable_name,
            external_args,
            conditional,
            external,
            pushes_to_stack,
            stack_push_type,
        } => Kind::Divert {
            path: path.map(place),
            target,
            variable: variable_name.map(place),
            arguments: external_args,
            conditional,
            external,
            pushes: pushes_to_stack,
            push_type: stack_push_type as u32,
        },
        NodeKindOf::Glue => Kind::Glue,
        NodeKindOf::NativeFunction(op) => Kind::Operator(op.number()),
        NodeKindOf::Tag(text) => Kind::Tag(place(text)),
        NodeKindOf::Value(value) => value_of(value),
        NodeKindOf::VariableAssignment { name, global, new_declaration } => {
            Kind::Assignment { name: place(name), global, new_declaration }
        }
        NodeKindOf::VariableReference { name, count_target } => {
            Kind::Reference { name: place(name), target: count_target }
        }
        NodeKindOf::Void => Kind::Void,
    }
}

/// The words of an answer where the call gives 0. Where it gives 18 they must have stayed, and it gives nothing else.
fn words<const N: usize>(call: impl FnOnce(*mut u32, usize) -> u32) -> Option<[u32; N]> {
    let mut answer = [MARK; N];
    let number = call(answer.as_mut_ptr(), answer.len());
    assert!(number == 0 || number == 18 && answer == [MARK; N], "{number}, {answer:x?}");
    (number == 0).then_some(answer)
}

impl Queries for Ours {
    fn node_view(&self, bytes: &[u8], view: &View, node: u32) -> Option<NodeView> {
        let view = asked(bytes, view).node_view(node)?;
        Some(NodeView { parent: view.parent, place: view.child_index, kind: kind_of(view.kind) })
    }

    fn page(&self, bytes: &[u8], view: &[u32], numbers: &[u32], slots: &mut [u32]) -> u32 {
        let (slots, slots_length) = (slots.as_mut_ptr(), slots.len());
        let (numbers, numbers_length) = (numbers.as_ptr(), numbers.len());
        let (length, view_length) = (bytes.len(), view.len());
        // SAFETY: the slices live through the call, and the slots, which alone are written, are borrowed alone.
        unsafe {
            ffi::story_image_page(
                bytes.as_ptr(),
                length,
                view.as_ptr(),
                view_length,
                numbers,
                numbers_length,
                slots,
                slots_length,
            )
        }
    }

    fn node_words(&self, bytes: &[u8], view: &[u32], node: u32) -> Option<[u32; 10]> {
        let (length, view_length) = (bytes.len(), view.len());
        let (bytes, view) = (bytes.as_ptr(), view.as_ptr());
        words(|answer, room| {
            // SAFETY: the slices live through the call, and the answer alone is written.
            unsafe { ffi::story_image_node_view(bytes, length, view, view_length, node, answer, room) }
        })
    }

    fn slot_words(&self, bytes: &[u8], view: &[u32], slot: &[u32]) -> Option<[u32; 10]> {
        let (length, view_length, slot_length) = (bytes.len(), view.len(), slot.len());
        let (bytes, view, slot) = (bytes.as_ptr(), view.as_ptr(), slot.as_ptr());
        words(|answer, room| {
            // SAFETY: as above.
            unsafe { ffi::story_image_slot_view(bytes, length, view, view_length, slot, slot_length, answer, room) }
        })
    }

    fn depth(&self, bytes: &[u8], view: &View, node: u32) -> Option<u32> {
        asked(bytes, view).depth(node)
    }

    fn child_count(&self, bytes: &[u8], view: &View, node: u32) -> Option<u32> {
        asked(bytes, view).child_count(node)
    }

    fn child_at(&self, bytes: &[u8], view: &View, node: u32, index: u32) -> Option<u32> {
        asked(bytes, view).child_at(node, index)
    }

    fn named_child_count(&self, bytes: &[u8], view: &View, node: u32) -> Option<u32> {
        asked(bytes, view).named_child_count(node)
    }

    fn named_child_at(&self, bytes: &[u8], view: &View, node: u32, index: u32) -> Option<Named> {
        let entry = asked(bytes, view).named_child_at(node, index)?;
        Some(Named { name: place(entry.name), node: entry.node })
    }

    fn find_named_child(&self, bytes: &[u8], view: &View, node: u32, name: &[u8]) -> Option<u32> {
        asked(bytes, view).find_named_child(node, name)
    }

    fn text(&self, bytes: &[u8], view: &View, place: Place) -> Option<(usize, usize)> {
        asked(bytes, view).text_part(text(place))
    }

    fn list_entry(&self, bytes: &[u8], view: &View, place_of: Place, index: u32) -> Option<Entry> {
        let entry = asked(bytes, view).list_entry(list(place_of), index)?;
        Some(Entry { origin: entry.origin.map(place), name: place(entry.name), value: entry.value })
    }

    fn list_origin(&self, bytes: &[u8], view: &View, place_of: Place, index: u32) -> Option<Place> {
        asked(bytes, view).list_origin(list(place_of), index).map(place)
    }

    fn list_counts(&self, bytes: &[u8], view: &View, node: u32) -> Option<[u32; 2]> {
        asked(bytes, view).list_counts(node).map(|counts| [counts.items, counts.origins])
    }

    fn definition_count(&self, bytes: &[u8], view: &View) -> Option<u32> {
        asked(bytes, view).definition_count()
    }

    fn definition(&self, bytes: &[u8], view: &View, index: u32) -> Option<(Place, u32)> {
        asked(bytes, view).definition(index).map(|found| (place(found.name), found.items))
    }

    fn definition_item(&self, bytes: &[u8], view: &View, index: u32, item: u32) -> Option<(Place, i32)> {
        asked(bytes, view).definition_item(index, item).map(|found| (place(found.name), found.value))
    }

    fn first_item(&self, bytes: &[u8], view: &View, index: u32) -> Option<u32> {
        asked(bytes, view).first_item(index)
    }

    fn list_item(&self, bytes: &[u8], view: &View, name: &[u8]) -> Looked {
        let search = asked(bytes, view).list_item(name);
        let found =
            search.item.map(|found| Found { definition: found.definition, item: found.item, value: found.value });
        Looked { item: found, searched: search.searched }
    }

    fn list_item_words(&self, bytes: &[u8], view: &[u32], name: &[u8], searched: &mut [u32]) -> Option<[u32; 3]> {
        let (length, view_length, name_length) = (bytes.len(), view.len(), name.len());
        let (bytes, view, name) = (bytes.as_ptr(), view.as_ptr(), name.as_ptr());
        let (searched, lent) = (searched.as_mut_ptr(), searched.len());
        words(|answer, room| {
            // SAFETY: the slices live through the call, and the answer and the words for the count alone are written.
            unsafe {
                ffi::story_image_find_list_item(
                    bytes,
                    length,
                    view,
                    view_length,
                    name,
                    name_length,
                    answer,
                    room,
                    searched,
                    lent,
                )
            }
        })
    }

    fn resolve_path(&self, bytes: &[u8], view: &View, origin: u32, relative: bool, steps: &[Step]) -> Option<u32> {
        let steps: Vec<story_image::Step<'_>> = steps
            .iter()
            .map(|step| match step {
                Step::Parent => story_image::Step::Parent,
                Step::Index(index) => story_image::Step::Index(*index),
                Step::Name(name) => story_image::Step::Name(name),
            })
            .collect();
        asked(bytes, view).resolve_path(origin, relative, &steps)
    }

    fn resolve_components(
        &self,
        bytes: &[u8],
        view: &View,
        origin: u32,
        relative: bool,
        components: &[u32],
        names: &[u8],
    ) -> Option<u32> {
        asked(bytes, view).resolve_components(origin, relative, components, names)
    }
}
