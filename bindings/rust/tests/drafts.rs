//! Drafts, made by hand and by the builder, written and read back.

use story_image::*;

const ROOT: [u32; 10] = [NONE, NONE, 1, NONE, NONE, 0, 0, 0, 0, 0];

fn written(draft: &Draft<'_>) -> Result<Vec<u8>, Refusal> {
    let (mut work, mut output) = (vec![9; draft.work_words()], vec![0; 10_000]);
    let length = draft.write(21, &mut work, &mut output)?.len();
    assert!(work.iter().all(|word| *word == 0));
    output.truncate(length);
    Ok(output)
}

fn loaded(bytes: &[u8]) -> Image<'_> {
    Image::load(bytes, &mut vec![0; load_words(bytes)]).unwrap()
}

#[test]
fn smallest() {
    let draft = Draft { nodes: &ROOT, ..Draft::default() };
    let bytes = written(&draft).unwrap();
    assert_eq!(bytes, include_bytes!("../../../samples/smallest.image"));
    let image = loaded(&bytes);
    assert_eq!((image.child_count(0), image.child_at(0, 0)), (Some(0), None));
    assert_eq!(image.resolve_path(0, true, &[]), Some(0));
}

#[test]
fn refused() {
    let draft = Draft { nodes: &ROOT[1..], ..Draft::default() };
    assert_eq!(write(21, &draft, &mut [0; 16], &mut [0; 140]), Err(WriteError::Refused(Refusal::BAD_DRAFT)));
    assert_eq!(draft.image_length(21, &mut [0; 16]), Err(Refusal::BAD_DRAFT));
    let draft = Draft { nodes: &ROOT, ..Draft::default() };
    let mut output = [7; 139];
    assert_eq!(write(21, &draft, &mut [0; 16], &mut output), Err(WriteError::Short { needed: 140 }));
    assert_eq!(output, [7; 139]);
    assert_eq!(write(17, &draft, &mut [0; 16], &mut output), Err(WriteError::Refused(Refusal::BAD_INK_VERSION)));
    assert_eq!(write(21, &draft, &mut [0; 15], &mut output), Err(WriteError::Refused(Refusal::TOO_FEW_WORDS)));
    let told = WriteError::Short { needed: 140 }.to_string();
    assert_eq!(told, "refused with 23: the output is too short, the image has 140 bytes");
}

/// What a view shows of what the builder was told.
fn shown(kind: &NodeKind<'_>, seen: &NodeKindView<'_>) -> bool {
    match (*kind, *seen) {
        (NodeKind::Container { name, count_flags }, NodeKindView::Container { name: other, count_flags: flags }) => {
            (name, count_flags) == (other, flags)
        }
        (NodeKind::ChoicePoint { flags, .. }, NodeKindView::ChoicePoint { flags: other, target }) => {
            flags == other && target == Some(0)
        }
        (NodeKind::ControlCommand(command), NodeKindView::ControlCommand(other)) => command == other,
        (
            NodeKind::Divert { path, variable_name, external_args, conditional, external, pushes_to_stack, .. },
            NodeKindView::Divert {
                path: other_path,
                target,
                variable_name: other_name,
                external_args: other_args,
                conditional: other_conditional,
                external: other_external,
                pushes_to_stack: other_pushes,
                stack_push_type,
            },
        ) => {
            (path, variable_name, external_args) == (other_path, other_name, other_args)
                && (conditional, external, pushes_to_stack) == (other_conditional, other_external, other_pushes)
                && target.is_none()
                && stack_push_type == PushPopType::Function
        }
        (NodeKind::Glue, NodeKindView::Glue) | (NodeKind::Void, NodeKindView::Void) => true,
        (NodeKind::NativeFunction(op), NodeKindView::NativeFunction(other)) => op == other,
        (NodeKind::Tag(text), NodeKindView::Tag(other)) => text == other,
        (NodeKind::Bool(value), NodeKindView::Value(ValueView::Bool(other))) => value == other,
        (NodeKind::Int(value), NodeKindView::Value(ValueView::Int(other))) => value == other,
        (NodeKind::Float(value), NodeKindView::Value(ValueView::Float(other))) => value.to_bits() == other.to_bits(),
        (NodeKind::String(text), NodeKindView::Value(ValueView::String(other))) => text == other,
        (NodeKind::List { items, origins }, NodeKindView::Value(ValueView::List(list))) => {
            list.items().eq(items.iter().copied()) && list.origins().eq(origins.iter().copied())
        }
        (NodeKind::DivertTarget { path, .. }, NodeKindView::Value(ValueView::DivertTarget(other))) => path == other,
        (
            NodeKind::VariablePointer { name, context_index },
            NodeKindView::Value(ValueView::VariablePointer { name: other, context_index: index }),
        ) => (name, context_index) == (other, index),
        (
            NodeKind::VariableAssignment { name, global, new_declaration },
            NodeKindView::VariableAssignment { name: other, global: is_global, new_declaration: is_new },
        ) => (name, global, new_declaration) == (other, is_global, is_new),
        (NodeKind::VariableReference { name, .. }, NodeKindView::VariableReference { name: other, count_target }) => {
            name == other && count_target == Some(0)
        }
        _ => false,
    }
}

#[test]
fn every_kind() {
    let items = [
        ListEntry { origin: Some("colour"), name: "red", value: 1 },
        ListEntry { origin: None, name: "lone", value: -7 },
    ];
    let kinds = [
        NodeKind::Container { name: Some("inner"), count_flags: -1 },
        NodeKind::ChoicePoint { path: Some("a.b"), target: 0, flags: 20 },
        NodeKind::ControlCommand(CommandType::PopTunnel),
        NodeKind::Divert {
            path: Some("x.3"),
            target: None,
            variable_name: Some("v"),
            external_args: 5,
            conditional: true,
            external: false,
            pushes_to_stack: true,
            stack_push_type: PushPopType::Function,
        },
        NodeKind::Glue,
        NodeKind::NativeFunction(Op::Hasnt),
        NodeKind::Tag("note"),
        NodeKind::Bool(true),
        NodeKind::Int(i32::MIN),
        NodeKind::Float(f32::from_bits(0x7fa0_1234)),
        NodeKind::String("Grüße"),
        NodeKind::List { items: &items, origins: &["colour", "shade"] },
        NodeKind::DivertTarget { path: "inner", target: 1 },
        NodeKind::VariablePointer { name: "p", context_index: -1 },
        NodeKind::VariableAssignment { name: "v", global: true, new_declaration: false },
        NodeKind::VariableReference { name: "r", count_path: Some("inner"), count_target: Some(0) },
        NodeKind::Void,
    ];
    let room = Room {
        nodes: &mut [0; 300],
        children: &mut [0; 30],
        named: &mut [0; 12],
        definitions: &mut [0; 8],
        items: &mut [0; 12],
        payload: &mut [0; 100],
        strings: &mut [0; 500],
    };
    let mut draft = DraftBuilder::new(room).unwrap();
    for kind in kinds {
        draft.child(DraftBuilder::ROOT, kind).unwrap();
    }
    // named children in no order, one of them an ordered child too
    let z = draft.named_container(DraftBuilder::ROOT, "z").unwrap();
    let a = draft.named_container(DraftBuilder::ROOT, "a").unwrap();
    draft.child(a, NodeKind::Glue).unwrap();
    draft.child(z, NodeKind::Void).unwrap();
    draft.name(1, "first").unwrap();
    draft.set_count_flags(z, 4).unwrap();
    draft.definition("colour", &[("red", 1), ("blue", 2)]).unwrap();
    draft.definition("shade", &[("dark", 9)]).unwrap();
    let bytes = written(&draft.finish()).unwrap();
    let image = loaded(&bytes);
    assert_eq!(image.node_count(), 22);
    for (kind, node) in kinds.iter().zip(image.children(0)) {
        let seen = image.node_view(node).unwrap();
        assert!(shown(kind, &seen.kind), "{kind:?} and {seen:?}");
        assert_eq!(seen.parent, Some(0));
    }
    let names: Vec<_> = image.named_children(0).map(|child| child.name).collect();
    assert_eq!(names, ["a", "first", "z"]);
    assert_eq!(image.find_named_child(0, "first"), image.child_at(0, 0));
    let z = image.find_named_child(0, "z").unwrap();
    assert_eq!(image.node_view(z).unwrap().kind, NodeKindView::Container { count_flags: 4, name: Some("z") });
    let definitions: Vec<_> = image.definitions().map(|definition| (definition.name, definition.items)).collect();
    assert_eq!(definitions, [("colour", 2), ("shade", 1)]);
    assert_eq!(image.definition_items(0).collect::<Vec<_>>(), [("blue", 2), ("red", 1)]);
    let dark = ListItem { definition: 1, item: 2, value: 9 };
    assert_eq!(image.list_item("dark"), ItemSearch { item: Some(dark), searched: 1 });
    assert_eq!(image.list_item("red").searched, 2);
}

#[test]
fn targets() {
    let room = Room {
        nodes: &mut [0; 50],
        children: &mut [0; 4],
        named: &mut [0; 3],
        strings: &mut [0; 20],
        ..Room::default()
    };
    let mut draft = DraftBuilder::new(room).unwrap();
    let choice = draft.child(0, NodeKind::ChoicePoint { path: None, target: NONE, flags: 0 }).unwrap();
    let glue = draft.child(0, NodeKind::Glue).unwrap();
    let later = draft.named_container(0, "later").unwrap();
    draft.set_target(choice, later).unwrap();
    assert_eq!(draft.set_target(glue, later), Err(BuildError::NoTarget(glue)));
    assert_eq!(draft.set_target(99, later), Err(BuildError::NoTarget(99)));
    let bytes = written(&draft.finish()).unwrap();
    let image = loaded(&bytes);
    let NodeKindView::ChoicePoint { target, .. } = image.node_view(1).unwrap().kind else { panic!("a choice") };
    assert_eq!(target, image.find_named_child(0, "later"));
}

/// Where there is no room nothing is added, and what is there can still be written.
#[test]
fn full() {
    assert_eq!(DraftBuilder::new(Room::default()).err(), Some(BuildError::Full("nodes")));
    let room = Room {
        nodes: &mut [0; 30],
        children: &mut [0; 1],
        named: &mut [0; 3],
        definitions: &mut [0; 3],
        items: &mut [0; 2],
        payload: &mut [0; 7],
        strings: &mut [0; 8],
    };
    let mut draft = DraftBuilder::new(room).unwrap();
    let list = NodeKind::List { items: &[], origins: &[] };
    assert_eq!(draft.child(0, list), Err(BuildError::Full("payload")));
    assert_eq!(draft.child(0, NodeKind::String("123456789")), Err(BuildError::Full("strings")));
    assert_eq!(draft.named_container(0, "12345"), Err(BuildError::Full("strings")));
    assert_eq!(draft.definition("d", &[("i", 1)]), Err(BuildError::Full("items")));
    assert_eq!(draft.definition("d", &[]), Err(BuildError::Full("definitions")));
    assert_eq!(draft.child(5, NodeKind::Glue), Err(BuildError::NoContainer(5)));
    assert_eq!(draft.name(0, "root"), Err(BuildError::NoContainer(NONE)));
    let glue = draft.child(0, NodeKind::Glue).unwrap();
    assert_eq!(draft.child(0, NodeKind::Glue), Err(BuildError::Full("children")));
    assert_eq!(draft.child(glue, NodeKind::Glue), Err(BuildError::NoContainer(glue)));
    draft.named_container(0, "1234").unwrap();
    assert_eq!(draft.named_container(0, ""), Err(BuildError::Full("named entries")));
    let bytes = written(&draft.finish()).unwrap();
    let image = loaded(&bytes);
    assert_eq!((image.node_count(), image.find_named_child(0, "1234")), (3, Some(2)));
    assert_eq!(BuildError::Full("nodes").to_string(), "no more room for nodes");
}
