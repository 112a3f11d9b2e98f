//! The sleeper's reader against the technician's, and against itself on two images that differ in notes and places.

use std::fmt::Debug;
use story_image::{
    Image, NONE, NodeKindOf, NodeViewOf, Refusal, Sleeper, Step, Text, ValueOf, load_words, sleeper_load_words,
};

const ONE: &[u8] = include_bytes!("../../../samples/note-one.image");
const TWO: &[u8] = include_bytes!("../../../samples/note-two.image");
const STEP: &[u8] = include_bytes!("../../../samples/step.image");
const GUIDE: &[u8] = include_bytes!("../../../samples/guide.image");
const TAG: &[u8] = include_bytes!("../../../samples/tag.image");
const BIT: &[u8] = include_bytes!("../../../samples/bit.image");

fn image(bytes: &'static [u8]) -> Image<'static> {
    Image::load(bytes, &mut vec![0; load_words(bytes)]).unwrap()
}

fn sleeper(bytes: &'static [u8]) -> Sleeper<'static> {
    Sleeper::load(bytes, &mut vec![0; sleeper_load_words(bytes)]).unwrap()
}

fn text(sleeper: &Sleeper<'_>, which: Text) -> Result<String, Refusal> {
    let mut buffer = vec![0; sleeper.text_length(which).unwrap_or(0) as usize];
    sleeper.text(which, &mut buffer).map(str::to_owned)
}

/// A node in words, with its texts and its list value by these.
fn described<T: Copy, L: Copy>(
    view: NodeViewOf<T, L>,
    text: impl Fn(T) -> String,
    list: impl Fn(L) -> String,
) -> String {
    let held = match view.kind {
        NodeKindOf::Container { count_flags, name } => format!("{count_flags} {:?}", name.map(text)),
        NodeKindOf::ChoicePoint { flags, target } => format!("{flags} {target:?}"),
        NodeKindOf::ControlCommand(command) => command.name().to_owned(),
        NodeKindOf::Divert {
            path,
            target,
            variable_name,
            external_args,
            conditional,
            external,
            pushes_to_stack,
            stack_push_type,
        } => {
            let (texts, flags) =
                ((path.map(&text), variable_name.map(&text)), (conditional, external, pushes_to_stack));
            format!("{texts:?} {target:?} {external_args} {flags:?} {stack_push_type:?}")
        }
        NodeKindOf::NativeFunction(op) => op.name().to_owned(),
        NodeKindOf::Tag(held) | NodeKindOf::Value(ValueOf::String(held) | ValueOf::DivertTarget(held)) => text(held),
        NodeKindOf::Value(ValueOf::VariablePointer { name, context_index }) => {
            format!("{} {context_index}", text(name))
        }
        NodeKindOf::Value(ValueOf::List(held)) => list(held),
        NodeKindOf::Value(ValueOf::Bool(value)) => value.to_string(),
        NodeKindOf::Value(ValueOf::Int(value)) => value.to_string(),
        NodeKindOf::Value(ValueOf::Float(value)) => value.to_bits().to_string(),
        NodeKindOf::VariableAssignment { name, global, new_declaration } => {
            format!("{} {global} {new_declaration}", text(name))
        }
        NodeKindOf::VariableReference { name, count_target } => format!("{} {count_target:?}", text(name)),
        NodeKindOf::Glue | NodeKindOf::Void => String::new(),
    };
    format!("{:?} {:?} {} {held}", view.parent, view.child_index, view.kind.name())
}

fn by_sleeper(sleeper: &Sleeper<'_>, node: u32) -> String {
    let copied = |which| text(sleeper, which).unwrap();
    let list = |node| {
        let entries =
            sleeper.list_entries(node).map(|entry| (entry.origin.map(copied), copied(entry.name), entry.value));
        let origins = (0..sleeper.list_origin_count(node).unwrap()).map(|index| copied(Text::Origin(node, index)));
        format!("{:?} {:?}", entries.collect::<Vec<_>>(), origins.collect::<Vec<_>>())
    };
    described(sleeper.node_view(node).unwrap(), copied, list)
}

fn by_technician(image: &Image<'_>, node: u32) -> String {
    described(image.node_view(node).unwrap(), str::to_owned, |list| {
        let entries = list.items().map(|entry| (entry.origin, entry.name, entry.value));
        format!("{:?} {:?}", entries.collect::<Vec<_>>(), list.origins().collect::<Vec<_>>())
    })
}

/// Every node but a note is as the technician's reader has it, and all else that is asked by numbers and names is.
#[test]
fn as_the_technician_sees_it() {
    for bytes in [ONE, TWO, STEP, GUIDE] {
        let (image, sleeper) = (image(bytes), sleeper(bytes));
        let is_note =
            |node| matches!(image.node_view(node).unwrap().kind, NodeKindOf::Tag(text) if text.starts_with("tech:"));
        for node in 0..image.node_count() {
            if !is_note(node) {
                assert_eq!(by_sleeper(&sleeper, node), by_technician(&image, node), "node {node}");
            }
            assert_eq!(sleeper.depth(node), image.depth(node));
            assert_eq!(sleeper.child_count(node), image.child_count(node));
            assert!(sleeper.children(node).eq(image.children(node)));
            assert!(sleeper.named_children(node).eq(image.named_children(node).map(|child| child.node)));
            for (index, child) in image.named_children(node).enumerate() {
                assert_eq!(text(&sleeper, Text::NamedChild(node, index as u32)).as_deref(), Ok(child.name));
                assert_eq!(sleeper.find_named_child(node, child.name), Some(child.node));
            }
        }
        assert_eq!(sleeper.definition_count(), image.definition_count());
        for (index, definition) in (0..).zip(image.definitions()) {
            assert_eq!(text(&sleeper, Text::Definition(index)).as_deref(), Ok(definition.name));
            assert_eq!(sleeper.definition_item_count(index), Some(definition.items));
            for (item, (name, value)) in (0..).zip(image.definition_items(index)) {
                assert_eq!(text(&sleeper, Text::DefinitionItem(index, item)).as_deref(), Ok(name));
                let number = sleeper.definition_first_item(index).unwrap() + item;
                assert_eq!(text(&sleeper, Text::Item(number)).as_deref(), Ok(name));
                assert_eq!(sleeper.definition_item(index, item), Some(value));
                assert_eq!(sleeper.list_item(name), image.list_item(name));
            }
        }
    }
}

#[test]
fn notes() {
    let (image, sleeper) = (image(ONE), sleeper(ONE));
    assert_eq!(by_technician(&image, 1), "Some(0) Some(0) tag tech:Good evening.");
    assert_eq!(by_technician(&image, 10), "Some(9) Some(0) tag tech:");
    for (node, seen) in [(1, "Some(0) Some(0) void "), (10, "Some(9) Some(0) void ")] {
        assert_eq!(by_sleeper(&sleeper, node), seen);
        assert_eq!(text(&sleeper, Text::Node(node)), Err(Refusal::NOT_FOUND));
        assert_eq!(sleeper.text_length(Text::Node(node)), None);
    }
    assert_eq!(sleeper.child_at(0, 0), Some(1));
    for (node, seen) in [(3, "tag tech"), (4, "tag Tech:lead 3"), (5, "tag  tech:lead 3"), (6, "string tech:lead 3")] {
        assert!(by_sleeper(&sleeper, node).ends_with(seen), "{}", by_sleeper(&sleeper, node));
    }
}

/// Whatever is asked by numbers up to a bit past those that are there, by names and by paths.
fn answers(sleeper: &Sleeper<'_>) -> Vec<String> {
    let numbers: Vec<u32> = (0..sleeper.node_count() + 2).chain([NONE]).collect();
    let names = ["", "night", "red", "lamp.red", "lamp.blue", "tech:", "Good evening."];
    let mut all = vec![format!("{sleeper:?} {}", sleeper.definition_count())];
    let mut push = |answer: &dyn Debug| all.push(format!("{answer:?}"));
    for &a in &numbers {
        push(&(sleeper.node_view(a), sleeper.depth(a), sleeper.child_count(a), sleeper.named_child_count(a)));
        push(&(sleeper.list_item_count(a), sleeper.list_origin_count(a), sleeper.definition_item_count(a)));
        push(&sleeper.definition_first_item(a));
        push(&[Text::Node(a), Text::Variable(a), Text::Definition(a), Text::Item(a)].map(|which| text(sleeper, which)));
        push(&names.map(|name| sleeper.find_named_child(a, name)));
        push(&names.map(|name| sleeper.resolve_path(a, true, &[Step::Parent, Step::Name(name)])));
        for &b in &numbers {
            push(&(sleeper.child_at(a, b), sleeper.named_child_at(a, b), sleeper.list_entry(a, b)));
            push(&(
                sleeper.definition_item(a, b),
                sleeper.resolve_path(a, false, &[Step::Name("night"), Step::Index(b)]),
            ));
            let kinds = [Text::NamedChild, Text::DefinitionItem, Text::EntryName, Text::EntryOrigin, Text::Origin];
            push(&kinds.map(|kind| text(sleeper, kind(a, b))));
        }
    }
    push(&names.map(|name| sleeper.list_item(name)));
    all
}

#[test]
fn two_images_that_are_not_told_apart() {
    let (one, two) = (image(ONE), image(TWO));
    assert_ne!(one.total_length(), two.total_length());
    assert_ne!(one.strings_length(), two.strings_length());
    assert_ne!(one.checksum(), two.checksum());
    assert_ne!(by_technician(&one, 1), by_technician(&two, 1));
    let seen = answers(&one.sleeper());
    assert_eq!(seen, answers(&two.sleeper()));
    assert_eq!(seen, answers(&sleeper(ONE)));
    assert_eq!(seen, answers(&sleeper(TWO)));
    assert!(seen.iter().any(|answer| answer.contains("Good evening.")));
}

/// 18 goes before 23; with both the buffer stays. Bytes past the text stay too.
#[test]
fn texts_are_copied() {
    let sleeper = sleeper(TWO);
    let mut buffer = [b'~'; 20];
    assert_eq!(sleeper.text(Text::Node(1), &mut []), Err(Refusal::NOT_FOUND));
    assert_eq!(sleeper.text(Text::Node(2), &mut []), Err(Refusal::NO_ROOM));
    assert_eq!(sleeper.text(Text::Node(2), &mut buffer[..12]), Err(Refusal::NO_ROOM));
    assert_eq!(sleeper.text(Text::Node(1), &mut buffer), Err(Refusal::NOT_FOUND));
    assert_eq!(buffer, [b'~'; 20]);
    let copy = sleeper.text(Text::Node(2), &mut buffer).unwrap();
    assert_eq!(copy, "Good evening.");
    assert!(!TWO.as_ptr_range().contains(&copy.as_ptr()));
    assert_eq!(buffer, *b"Good evening.~~~~~~~");
}

#[test]
fn refused_loads() {
    for bytes in [TAG, BIT, &ONE[..87], &ONE[..ONE.len() - 1], b""] {
        let words = load_words(bytes);
        assert_eq!(sleeper_load_words(bytes), words);
        let refusal = Image::load(bytes, &mut vec![0; words]).unwrap_err();
        assert_eq!(Sleeper::load(bytes, &mut vec![0; words]).unwrap_err(), refusal);
    }
    let words = sleeper_load_words(ONE);
    assert_eq!(Sleeper::load(ONE, &mut vec![0; words - 1]).unwrap_err(), Refusal::TOO_FEW_WORDS);
    let mut work = vec![7; words + 1];
    Sleeper::load(ONE, &mut work).unwrap();
    assert_eq!((&work[..words], work[words]), (&vec![0; words][..], 7));
}

/// What is printed of a reader has neither a length nor an address.
#[test]
fn printed() {
    assert_eq!(format!("{:?}", sleeper(ONE)), "Sleeper { ink_version: 21, nodes: 12, .. }");
}
