//! Queries on samples of the repository, and what they leave of an answer.

use std::collections::BTreeSet;
use story_image::raw::{self, TextPlace};
use story_image::{
    CommandType, Image, ItemSearch, KINDS, ListItem, NONE, NodeKindOf, NodeKindView, Op, Refusal, Section, Step,
    ValueOf, ValueView, View, ffi, kind_name, load_words,
};

const STEP: &[u8] = include_bytes!("../../../samples/step.image");
const GUIDE: &[u8] = include_bytes!("../../../samples/guide.image");
const CIRCLE: &[u8] = include_bytes!("../../../samples/circle.image");

fn image(bytes: &'static [u8]) -> Image<'static> {
    Image::load(bytes, &mut vec![0; load_words(bytes)]).unwrap()
}

#[test]
fn nodes_and_texts() {
    let image = image(STEP);
    let root = image.node_view(0).unwrap();
    assert_eq!((root.parent, root.child_index), (None, None));
    assert_eq!(root.kind, NodeKindView::Container { count_flags: 0, name: None });
    assert_eq!(image.node_view(1).unwrap().kind, NodeKindView::Value(ValueView::String("Good evening.")));
    assert_eq!(image.nodes().count(), image.node_count() as usize);
    assert_eq!(image.node_view(image.node_count()), None);
    assert_eq!(image.node_view(NONE), None);
}

/// Every text of every node is the part of the bytes that the library names.
#[test]
fn texts_are_parts() {
    for image in [image(STEP), image(GUIDE)] {
        let raw = image.raw();
        let same = |text: Option<&str>, place: Option<TextPlace>| {
            let part = place.map(|place| raw.text(place).unwrap());
            assert_eq!(text.map(str::as_bytes), part);
            assert_eq!(text.map(|text| text.as_ptr()), part.map(|part| part.as_ptr()));
        };
        for node in 0..image.node_count() {
            let words = raw.node_words(node).unwrap();
            let place =
                |at: usize| (words[at] != NONE).then_some(TextPlace { offset: words[at], length: words[at + 1] });
            match image.node_view(node).unwrap().kind {
                NodeKindView::Container { name, .. } => same(name, place(3)),
                NodeKindView::Divert { path, variable_name, .. } => {
                    same(path, place(3));
                    same(variable_name, place(5));
                }
                NodeKindView::Tag(text)
                | NodeKindView::Value(ValueView::String(text) | ValueView::DivertTarget(text))
                | NodeKindView::Value(ValueView::VariablePointer { name: text, .. })
                | NodeKindView::VariableAssignment { name: text, .. }
                | NodeKindView::VariableReference { name: text, .. } => same(Some(text), place(3)),
                NodeKindView::ControlCommand(command) => assert_eq!(command.number(), words[8]),
                NodeKindView::NativeFunction(op) => assert_eq!(op.number(), words[8]),
                _ => (),
            }
        }
    }
}

/// A kind's number is the tag of its node, and its name that number's.
#[test]
fn kinds() {
    let image = image(GUIDE);
    let mut seen = BTreeSet::new();
    for node in 0..image.node_count() {
        let (kind, words) = (image.node_view(node).unwrap().kind, image.raw().node_words(node).unwrap());
        assert_eq!((kind.number(), Some(kind.name())), (words[2], kind_name(words[2])));
        seen.insert((kind.number(), kind.name()));
    }
    assert!(seen.iter().eq(KINDS), "every kind is in the guide, and the table rises: {seen:?}");
    assert_eq!([0, 15, 19, NONE].map(kind_name), [None; 4]);
}

/// The names of commands and operators are the texts by which the image names them.
#[test]
fn names() {
    let image = image(GUIDE);
    let nodes = &image.bytes()[image.view().nodes.offset as usize..];
    let word = |at: usize| u32::from_le_bytes(nodes[at..at + 4].try_into().unwrap());
    let mut seen = 0;
    for node in 0..image.node_count() {
        let at = 40 * node as usize;
        let name = || image.raw().text(TextPlace { offset: word(at + 12), length: word(at + 16) }).unwrap();
        let shown = match image.node_view(node).unwrap().kind {
            NodeKindView::ControlCommand(command) => command.name(),
            NodeKindView::NativeFunction(op) => op.name(),
            _ => continue,
        };
        assert_eq!(shown.as_bytes(), name());
        seen += 1;
    }
    assert!(seen > 0);
    assert_eq!((CommandType::ALL.len(), Op::ALL.len()), (26, 31));
    assert!(CommandType::ALL.iter().all(|one| CommandType::from_name(one.name()) == Some(*one)));
    assert!(Op::ALL.iter().all(|one| Op::from_name(one.name()) == Some(*one)));
    assert_eq!((CommandType::from_number(26), Op::from_number(31)), (None, None));
    for number in 0..40 {
        let command = CommandType::from_number(number).map(|one| one.name().into());
        assert_eq!(spelled(ffi::story_image_command_name, number), command);
        assert_eq!(
            spelled(ffi::story_image_operator_name, number),
            Op::from_number(number).map(|one| one.name().into())
        );
    }
}

/// A function of the library that spells a number.
type Spelling = unsafe extern "C" fn(u32, *mut u8, usize, *mut u32, usize) -> u32;

/// The text that the library gives; with a byte too few it gives none, and writes nothing.
fn spelled(spelling: Spelling, number: u32) -> Option<String> {
    let (mut text, mut size) = ([b'?'; 16], [77; 2]);
    // SAFETY: the slices live through the call and do not overlap.
    let answer = unsafe { spelling(number, text.as_mut_ptr(), 16, size.as_mut_ptr(), 2) };
    if answer != 0 {
        assert_eq!((answer, text, size), (18, [b'?'; 16], [77; 2]));
        return None;
    }
    let length = size[0] as usize;
    assert!(text[length..].iter().all(|byte| *byte == b'?') && size[1] == 77);
    let (mut short, mut none) = ([b'?'; 16], [77; 2]);
    // SAFETY: as above.
    let too_short = unsafe { spelling(number, short.as_mut_ptr(), length - 1, none.as_mut_ptr(), 2) };
    assert_eq!((too_short, short, none), (23, [b'?'; 16], [77; 2]));
    Some(String::from_utf8(text[..length].to_vec()).unwrap())
}

/// A node's depth is the number of parent steps to node 0; outside there is none.
#[test]
fn depths() {
    for image in [image(STEP), image(GUIDE)] {
        let parent = |node: &u32| image.node_view(*node).unwrap().parent;
        for node in 0..image.node_count() {
            let steps = std::iter::successors(parent(&node), parent).count() as u32;
            assert_eq!(image.depth(node), Some(steps));
            assert!(steps < image.node_count());
        }
        assert_eq!((image.depth(0), image.depth(image.node_count()), image.depth(NONE)), (Some(0), None, None));
    }
}

/// A container that is only a named child lies one below its parent, as any other child.
#[test]
fn depths_of_named_children() {
    let image = image(GUIDE);
    let mut only_named = 0;
    for node in 0..image.node_count() {
        let below = image.depth(node).map(|depth| depth + 1);
        assert!(image.children(node).all(|child| image.depth(child) == below));
        for child in image.named_children(node) {
            assert_eq!(image.depth(child.node), below);
            only_named += u32::from(image.children(node).all(|other| other != child.node));
        }
    }
    assert_eq!(only_named, 36);
}

/// The parents of nodes 1 and 2 lead in a circle: no load accepts it, and they have no depth.
#[test]
fn no_depth_in_a_circle() {
    let refused = Image::load(CIRCLE, &mut vec![0; load_words(CIRCLE)]).unwrap_err();
    assert_eq!(refused, Refusal::UNREACHED);
    // the ink version, then offsets and counts, as the header has them
    let word = |at: usize| u32::from_le_bytes(CIRCLE[at..at + 4].try_into().unwrap());
    let view = View::from(std::array::from_fn(|k| word(if k == 0 { 12 } else { 16 + 4 * k })));
    let asked = raw::Queries::new(CIRCLE, view);
    assert_eq!(view.nodes.count, 3);
    assert_eq!([0, 1, 2, 3, NONE].map(|node| asked.depth(node)), [Some(0), None, None, None, None]);
}

#[test]
fn children_and_walks() {
    let image = image(STEP);
    let count = image.child_count(0).unwrap();
    assert_eq!(image.children(0).count(), count as usize);
    assert_eq!(image.children(0).next(), Some(1));
    assert_eq!(image.child_at(0, count), None);
    assert_eq!(image.child_count(1), None);
    assert_eq!((image.children(1).count(), image.named_children(1).count()), (0, 0));
    assert!(image.named_children(0).count() > 0);
    for child in image.named_children(0) {
        assert_eq!(image.find_named_child(0, child.name), Some(child.node));
        assert_eq!(image.resolve_path(1, false, &[Step::Name(child.name)]), Some(child.node));
        assert_eq!(image.resolve_path(child.node, true, &[Step::Parent]), Some(0));
    }
    assert_eq!(image.find_named_child(0, "no such name"), None);
    // from a node that is no container: its parent, one component skipped
    assert_eq!(image.resolve_path(1, true, &[]), Some(0));
    assert_eq!(image.resolve_path(1, true, &[Step::Index(9), Step::Index(0)]), Some(1));
    assert_eq!(image.resolve_path(0, true, &[Step::Parent]), None);
}

/// Paths in one call and in several say the same.
#[test]
fn long_paths() {
    let image = image(STEP);
    let long = "x".repeat(300);
    let child = image.named_children(0).next().unwrap();
    // down to a child that is no container and back, many times over
    for times in [1, 5, 7, 8, 9, 16, 17, 40] {
        let down_and_up: Vec<Step<'_>> = [Step::Index(0), Step::Parent].repeat(times);
        let names: Vec<Step<'_>> = [Step::Name(child.name), Step::Parent].repeat(times);
        for (path, end) in [
            (down_and_up.clone(), Some(0)),
            (names.clone(), Some(0)),
            ([&down_and_up[..], &[Step::Index(0)]].concat(), Some(1)),
            ([&names[..], &[Step::Index(0)], &down_and_up[..]].concat(), None),
            ([&names[..], &[Step::Name(&long)]].concat(), None),
            ([&[Step::Name(&long)], &names[..]].concat(), None),
        ] {
            assert_eq!(image.resolve_path(0, false, &path), end, "{times}");
            assert_eq!(image.resolve_path(0, true, &path), end, "{times}");
            assert_eq!(in_one_call(&image, 0, &path), end, "{times}");
            // the first is skipped, a long name too
            let skipped = [&[Step::Name(&long)], &path[..]].concat();
            assert_eq!(image.resolve_path(1, true, &skipped), end, "{times}");
        }
    }
}

fn in_one_call(image: &Image<'_>, origin: u32, path: &[Step<'_>]) -> Option<u32> {
    let (mut words, mut names) = (vec![], vec![]);
    for step in path {
        words.extend(match step {
            Step::Parent => [0, 0, 0],
            Step::Index(index) => [1, *index, 0],
            Step::Name(name) => [2, names.len() as u32, name.len() as u32],
        });
        if let Step::Name(name) = step {
            names.extend_from_slice(name.as_bytes());
        }
    }
    image.resolve_components(origin, false, &words, &names)
}

#[test]
fn lists() {
    let image = image(STEP);
    assert_eq!(image.definitions().count(), image.definition_count() as usize);
    assert_eq!(image.definition(image.definition_count()), None);
    let mut before = 0;
    for (index, definition) in (0..).zip(image.definitions()) {
        assert_eq!(image.definition_items(index).count(), definition.items as usize);
        for (item, (name, value)) in (0..).zip(image.definition_items(index)) {
            let search = image.list_item(format!("{}.{name}", definition.name));
            let found = ListItem { definition: index, item: before + item, value };
            assert_eq!(search, ItemSearch { item: Some(found), searched: 1 });
            assert_eq!(image.list_item_names(found), Some((definition.name, name)));
        }
        before += definition.items;
    }
    assert!(before > 0);
    assert_eq!(image.list_item(" "), ItemSearch { item: None, searched: 0 });
    let lists: Vec<_> = (0..image.node_count()).filter_map(|node| image.list(node)).collect();
    lists_by_node(&image);
    assert!(!lists.is_empty());
    for list in &lists {
        assert_eq!(*list, *list);
        for item in list.items() {
            assert!(!item.name.is_empty());
            if let Some(origin) = item.origin {
                assert_eq!(image.list_item(format!("{origin}.{}", item.name)).item.unwrap().value, item.value);
            }
        }
        assert_eq!(list.items().count(), list.item_count() as usize);
        assert_eq!(list.origins().count(), list.origin_count() as usize);
        assert_eq!((list.item(list.item_count()), list.origin(list.origin_count())), (None, None));
    }
    assert!(lists.iter().any(|list| list.items().count() > 0));
}

/// Lists by node and by place say the same; a node that is no list has none.
fn lists_by_node(image: &Image<'_>) {
    let raw = image.raw();
    for node in 0..=image.node_count() {
        let place = match raw.node_view(node).map(|node| node.kind) {
            Some(NodeKindOf::Value(ValueOf::List(place))) => place,
            _ => {
                assert_eq!((raw.list_payload(node), raw.list_counts(node)), (None, None));
                assert_eq!((raw.node_list_entry(node, 0), raw.node_list_origin(node, 0)), (None, None));
                continue;
            }
        };
        let (start, length) = raw.list_payload(node).unwrap();
        assert_eq!(start, (image.view().payload.offset + place.offset) as usize);
        assert_eq!(length, place.length as usize);
        let counts = raw.list_counts(node).unwrap();
        for index in 0..=counts.items {
            assert_eq!(raw.node_list_entry(node, index), raw.list_entry(place, index));
            assert_eq!(raw.list_entry(place, index).is_some(), index < counts.items);
        }
        for index in 0..=counts.origins {
            assert_eq!(raw.node_list_origin(node, index), raw.list_origin(place, index));
            assert_eq!(raw.list_origin(place, index).is_some(), index < counts.origins);
        }
    }
}

/// Any bytes and any view may be asked; an answer's parts lie inside the bytes.
#[test]
fn any_view() {
    let strange = Section { offset: NONE, count: NONE };
    for view in [
        View::default(),
        View { nodes: strange, ..image(STEP).view() },
        View { strings: strange, ..image(STEP).view() },
        View { payload: strange, ..image(STEP).view() },
        View { nodes: Section { offset: 3, count: 100 }, ..image(STEP).view() },
        View { definitions: strange, ..image(STEP).view() },
        View { items: strange, ..image(STEP).view() },
    ] {
        for bytes in [STEP, &STEP[..500], &[]] {
            let asked = raw::Queries::new(bytes, view);
            for name in ["red", "lamp.red", "none", " "] {
                assert!(asked.list_item(name.as_bytes()).searched <= asked.definition_count().unwrap());
            }
            for node in (0..120).chain([NONE]) {
                asked.node_view(node);
                assert!(asked.depth(node).is_none_or(|depth| depth < view.nodes.count));
                asked.child_at(node, 0);
                asked.named_child_at(node, 0);
                asked.find_named_child(node, b"a");
                asked.resolve_path(node, true, &[Step::Parent, Step::Index(0), Step::Name("a")]);
                let place = TextPlace { offset: node, length: 4 };
                assert!(asked.text(place).is_none_or(|text| text.len() == 4));
            }
        }
    }
}

/// Number and answer of a node view with so many words of a view and of an answer.
fn root_view(view_words: usize, answer_words: usize) -> (u32, Vec<u32>) {
    let (view, mut answer) = (image(STEP).view().words(), vec![5; answer_words]);
    // SAFETY: the slices live through the call, and the answer alone is written.
    let number = unsafe {
        ffi::story_image_node_view(
            STEP.as_ptr(),
            STEP.len(),
            view.as_ptr(),
            view_words,
            0,
            answer.as_mut_ptr(),
            answer_words,
        )
    };
    (number, answer)
}

#[test]
fn answers() {
    assert_eq!(root_view(17, 12), (0, vec![NONE, NONE, 1, NONE, NONE, NONE, NONE, NONE, 0, 0, 5, 5]));
    // too short: no answer, and nothing is written
    assert_ne!(root_view(17, 9).0, 0);
    assert_eq!(root_view(17, 9).1, vec![5; 9]);
    assert_ne!(root_view(16, 12).0, 0);
    assert_eq!(root_view(16, 12).1, vec![5; 12]);
    assert_eq!(Refusal::NOT_FOUND.number(), 18);
}
