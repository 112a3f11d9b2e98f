//! Targets found from paths: lists by hand, path texts of a draft, and what is refused.

use story_image::*;

/// Room for small drafts, which is never given back.
fn room() -> Room<'static> {
    Room {
        nodes: vec![0; 300].leak(),
        children: vec![0; 30].leak(),
        named: vec![0; 30].leak(),
        definitions: vec![0; 4].leak(),
        items: vec![0; 3].leak(),
        payload: vec![0; 8].leak(),
        strings: vec![0; 500].leak(),
    }
}

fn choice(path: Option<&str>) -> NodeKind<'_> {
    NodeKind::ChoicePoint { path, target: NONE, flags: 5 }
}

fn divert(path: Option<&str>) -> NodeKind<'_> {
    NodeKind::Divert {
        path,
        target: None,
        variable_name: None,
        external_args: 3,
        conditional: true,
        external: false,
        pushes_to_stack: true,
        stack_push_type: PushPopType::Tunnel,
    }
}

fn value(path: &str) -> NodeKind<'_> {
    NodeKind::DivertTarget { path, target: NONE }
}

fn reference(count_path: Option<&str>) -> NodeKind<'_> {
    NodeKind::VariableReference { name: "seen", count_path, count_target: None }
}

/// All four kinds with one path.
fn kinds(path: &str) -> [NodeKind<'_>; 4] {
    [choice(Some(path)), divert(Some(path)), value(path), reference(Some(path))]
}

/// The nodes, from 1 on, are children of the root; behind them come the named container `night` with a text and a
/// container without name as children, and the named container `7`.
fn story(kinds: &[NodeKind<'_>]) -> OpenDraft<'static> {
    let mut draft = DraftBuilder::new(room()).unwrap();
    for kind in kinds {
        draft.child(DraftBuilder::ROOT, *kind).unwrap();
    }
    let night = draft.named_container(DraftBuilder::ROOT, "night").unwrap();
    draft.child(night, NodeKind::String("Sleep well.")).unwrap();
    draft.child(night, NodeKind::Container { name: None, count_flags: 0 }).unwrap();
    draft.named_container(DraftBuilder::ROOT, "7").unwrap();
    draft.definition("lamp", &[("red", 1)]).unwrap();
    draft.finish_open()
}

const CHOICE: u32 = 2;
const DIVERT: u32 = 4;
const VALUE: u32 = 13;
const REFERENCE: u32 = 17;

/// Finds targets by the list, with a work word more than is needed, and sees what the call leaves.
fn resolved(draft: &mut OpenDraft<'_>, paths: &Paths<'_>) -> Result<(), Refusal> {
    let (before, needed) = (draft.nodes.to_vec(), draft.work_words());
    let mut work = vec![9; needed + 1];
    let given = draft.resolve_static_targets(21, paths, &mut work).map(|_| ());
    let left = if given == Err(Refusal::BAD_DRAFT) { 9 } else { 0 };
    assert!(work[..needed].iter().all(|word| *word == left), "work words after {given:?}");
    assert_eq!(work[needed], 9);
    if given.is_err() {
        assert_eq!(draft.nodes, before, "a refused draft is unchanged");
    }
    given
}

/// Finds the targets that the path texts give.
fn by_texts(draft: &mut OpenDraft<'_>) -> Result<(), Refusal> {
    let mut words = vec![7; draft.path_words()];
    let paths = draft.paths(&mut words).unwrap();
    assert!(paths.entries.as_chunks::<4>().0.is_sorted_by_key(|entry| entry[0]), "nodes rise");
    assert_eq!(paths.entries.len() + paths.components.len(), draft.path_words());
    resolved(draft, &paths)
}

/// The ten words of a node.
fn node<'d>(draft: &'d mut OpenDraft<'_>, node: usize) -> &'d mut [u32; 10] {
    &mut draft.nodes.as_chunks_mut::<10>().0[node]
}

/// Where the target of a kind stands among the ten words.
fn target_at(tag: u32) -> usize {
    if tag == REFERENCE { 7 } else { 5 }
}

/// The words of a node once its target is set.
fn with_target(mut words: [u32; 10], target: u32) -> [u32; 10] {
    words[target_at(words[2])] = target;
    match words[2] {
        CHOICE | DIVERT => words[3..5].fill(NONE),
        REFERENCE => words[5..7].fill(NONE),
        _ => assert_eq!(words[2], VALUE),
    }
    words
}

/// Nodes of `story(&kinds(..))`.
const NIGHT: u32 = 5;
const TEXT: u32 = 6;
const INNER: u32 = 7;
const SEVEN: u32 = 8;

/// Each kind, absolute and relative paths: target and path text are set, no other word is another.
#[test]
fn each_kind() {
    for (path, target) in [
        ("night", NIGHT),
        (".^.night", NIGHT),
        ("night.1", INNER),
        (".^.night.1", INNER),
        ("night.1.^", NIGHT),
        ("night.0.^", NIGHT),
        ("night.+001", INNER),
        ("", 0),
        (".^", 0),
        // the first component of a relative path of such nodes is not read
        (".", 0),
        (".7", 0),
        (".nowhere.night", NIGHT),
    ] {
        let mut draft = story(&kinds(path));
        let due: Vec<_> = draft.nodes.as_chunks::<10>().0.to_vec();
        assert_eq!(by_texts(&mut draft), Ok(()), "{path}");
        for (words, (number, before)) in draft.nodes.as_chunks::<10>().0.iter().zip(due.iter().enumerate()) {
            let due = if (1..5).contains(&number) { with_target(*before, target) } else { *before };
            assert_eq!(*words, due, "{path}, node {number}");
        }
    }
}

/// Relative paths of nodes deeper down start at their own parents.
#[test]
fn deeper() {
    let mut draft = DraftBuilder::new(room()).unwrap();
    let outer = draft.named_container(DraftBuilder::ROOT, "a").unwrap();
    let inner = draft.named_container(outer, "a").unwrap();
    let nodes =
        [".^", ".^.^", ".^.^.^", ".^.^.a.a", ".^.0", ".^.^.^.a"].map(|path| draft.child(inner, value(path)).unwrap());
    let last = draft.named_container(inner, "a").unwrap();
    let mut draft = draft.finish_open();
    assert_eq!(by_texts(&mut draft), Ok(()));
    assert_eq!(nodes.map(|number| node(&mut draft, number as usize)[5]), [inner, outer, 0, last, nodes[0], outer]);
}

/// What is found stands in the image; a divert-target value has its text.
#[test]
fn written() {
    let mut draft = story(&kinds(".^.night.1"));
    let mut words = vec![0; draft.path_words()];
    let mut work = vec![0; draft.work_words()];
    let paths = draft.paths(&mut words).unwrap();
    let draft = draft.resolve_static_targets(20, &paths, &mut work).unwrap();
    let mut output = vec![0; draft.image_length(20, &mut work).unwrap()];
    let bytes = draft.write(20, &mut work, &mut output).unwrap();
    let image = Image::load(bytes, &mut vec![0; load_words(bytes)]).unwrap();
    let inner = image.resolve_path(0, false, &[Step::Name("night"), Step::Index(1)]);
    assert!(inner.is_some());
    let seen: Vec<_> = image.children(0).map(|child| image.node_view(child).unwrap().kind).collect();
    assert_eq!(seen[0], NodeKindView::ChoicePoint { target: inner, flags: 5 });
    assert!(matches!(seen[1], NodeKindView::Divert { path: None, target, .. } if target == inner));
    assert_eq!(seen[2], NodeKindView::Value(ValueView::DivertTarget(".^.night.1")));
    assert_eq!(seen[3], NodeKindView::VariableReference { name: "seen", count_target: inner });
}

/// A divert whose last component is an index, and a value, may lead to any node; choices and references may not.
#[test]
fn containers() {
    for path in ["night.0", ".^.night.0"] {
        assert_eq!(by_texts(&mut story(&[choice(Some(path))])), Err(Refusal::NO_CONTAINER));
        assert_eq!(by_texts(&mut story(&[reference(Some(path))])), Err(Refusal::NO_CONTAINER));
        let mut draft = story(&[divert(Some(path)), value(path)]);
        assert_eq!(by_texts(&mut draft), Ok(()));
        let text = TEXT - 2;
        assert_eq!((node(&mut draft, 1)[5], node(&mut draft, 2)[5]), (text, text));
    }
}

/// 25: no node is at the path.
#[test]
fn nowhere() {
    for path in [
        "nowhere",
        "1",
        "night.2",
        "night.0.0",
        "night.0.night",
        "^",
        ".^.^",
        ".^.nowhere",
        "night.",
        "night..1",
        "..",
        " ",
        // an index is no name, though a container bears it; indices beyond a word
        "7",
        "07",
        "night.4294967295",
        "night.4294967296",
        "night.18446744073709551615",
        "night.18446744073709551616",
    ] {
        for kind in kinds(path) {
            assert_eq!(by_texts(&mut story(&[kind])), Err(Refusal::NO_TARGET), "{path}");
        }
    }
    // by name it is found: the components are lent by hand
    let mut draft = story(&kinds("7"));
    let paths = Paths { entries: &[1, 0, 0, 1], components: &[2, 0, 1], names: b"7" };
    draft.nodes[25] = 0;
    draft.nodes[35] = 0;
    assert_eq!(resolved(&mut draft, &paths), Ok(()));
    assert_eq!(node(&mut draft, 1)[5], SEVEN);
}

/// Broken components: an unknown kind, a name outside the names. They are met only by a walk that comes to them.
#[test]
fn broken_components() {
    for broken in [[3, 0, 0], [NONE, 0, 0], [2, 0, 6], [2, 6, 0], [2, NONE, NONE], [2, 1, NONE]] {
        let mut draft = story(&[divert(None)]);
        let components = [[2, 0, 5], broken].concat();
        let paths = |entry| Paths { entries: entry, components: &components, names: b"night" };
        assert_eq!(resolved(&mut draft, &paths(&[1, 0, 0, 2])), Err(Refusal::NO_TARGET));
        assert_eq!(resolved(&mut draft, &paths(&[1, 0, 1, 1])), Err(Refusal::NO_TARGET));
        // skipped, and not of this path
        assert_eq!(resolved(&mut draft, &paths(&[1, 1, 1, 1])), Ok(()));
        assert_eq!(resolved(&mut draft, &paths(&[1, 0, 0, 1])), Ok(()));
    }
    // names that end before the name does
    let paths = Paths { entries: &[1, 0, 0, 1], components: &[2, 0, 5], names: &b"night"[..4] };
    assert_eq!(resolved(&mut story(&[divert(None)]), &paths), Err(Refusal::NO_TARGET));
    // an empty name at the end of the names is a name, which no child bears here
    let paths = Paths { entries: &[1, 0, 0, 1], components: &[2, 5, 0], names: b"night" };
    assert_eq!(resolved(&mut story(&[divert(None)]), &paths), Err(Refusal::NO_TARGET));
    // words left over behind the last component
    let paths = Paths { entries: &[1, 0, 0, 1], components: &[2, 0, 5, 1, 0], names: b"night" };
    assert_eq!(resolved(&mut story(&[divert(None)]), &paths), Ok(()));
}

/// External diverts, diverts by variable and nodes of other kinds are passed over, and tested as before.
#[test]
fn passed_over() {
    let NodeKind::Divert { external_args, conditional, pushes_to_stack, stack_push_type, .. } = divert(None) else {
        unreachable!()
    };
    let other = |variable_name, external| NodeKind::Divert {
        path: Some("nowhere"),
        target: None,
        variable_name,
        external_args,
        conditional,
        external,
        pushes_to_stack,
        stack_push_type,
    };
    let all = [other(None, true), other(Some("v"), false), other(Some("v"), true), NodeKind::Tag("nowhere")];
    // the root, the tag and a container have a path in the list too
    let paths = Paths {
        entries: &[0, 0, 0, 1, 1, 1, 0, 1, 2, 0, 0, 1, 3, 0, 0, 1, 4, 0, 0, 1, 5, 0, 0, 1],
        components: &[2, 0, 7],
        names: b"nowhere",
    };
    let mut draft = story(&all);
    let before = draft.nodes.to_vec();
    assert_eq!(by_texts(&mut draft), Ok(()));
    assert_eq!(resolved(&mut draft, &paths), Ok(()));
    assert_eq!(draft.nodes, before);
    for number in 1..4 {
        node(&mut draft, number)[5] = 99;
        assert_eq!(resolved(&mut draft, &paths), Err(Refusal::BAD_DRAFT));
        node(&mut draft, number)[5] = NIGHT;
    }
    assert_eq!(resolved(&mut draft, &paths), Ok(()));
    assert_eq!(node(&mut draft, 2)[5], NIGHT);
}

/// The target of a node that follows a path is any word; that of one that is not listed is tested as before.
#[test]
fn targets_before() {
    let names = b"night";
    let all = Paths { entries: &[1, 0, 0, 1, 2, 0, 0, 1, 3, 0, 0, 1, 4, 0, 0, 1], components: &[2, 0, 5], names };
    for target in [NONE, 99, TEXT, NIGHT] {
        let mut draft = story(&kinds("night"));
        for number in 1..5 {
            let words = node(&mut draft, number);
            words[target_at(words[2])] = target;
        }
        for (position, kind) in [CHOICE, DIVERT, VALUE, REFERENCE].into_iter().enumerate() {
            // all but one are listed
            let mut entries = all.entries.to_vec();
            entries.drain(4 * position..4 * position + 4);
            let right = match target {
                NIGHT => true,
                TEXT => kind == DIVERT || kind == VALUE,
                NONE => kind == DIVERT || kind == REFERENCE,
                _ => false,
            };
            let mut copy = draft.nodes.to_vec();
            let mut draft = OpenDraft { nodes: &mut copy, ..rest(&draft) };
            let before = *node(&mut draft, position + 1);
            let given = resolved(&mut draft, &Paths { entries: &entries, ..all });
            assert_eq!(given, if right { Ok(()) } else { Err(Refusal::BAD_DRAFT) }, "{target}, kind {kind}");
            // its path text stays
            assert_eq!(*node(&mut draft, position + 1), before);
        }
        assert_eq!(resolved(&mut draft, &all), Ok(()));
    }
    // a path text is no condition
    let mut draft = story(&[choice(None), divert(None), value(""), reference(None)]);
    assert_eq!(resolved(&mut draft, &all), Ok(()));
    assert_eq!(node(&mut draft, 4)[7], NIGHT);
    // the texts are still tested
    let mut draft = story(&kinds("night"));
    node(&mut draft, 1)[4] = 1000;
    assert_eq!(resolved(&mut draft, &all), Err(Refusal::BAD_DRAFT));
    assert_eq!(by_texts(&mut draft), Err(Refusal::BAD_DRAFT));
}

/// The sections but for the nodes.
fn rest<'a>(draft: &OpenDraft<'a>) -> OpenDraft<'a> {
    let OpenDraft { children, named, definitions, items, payload, strings, .. } = *draft;
    OpenDraft { nodes: &mut [], children, named, definitions, items, payload, strings }
}

/// A broken list is 19.
#[test]
fn broken_lists() {
    let right: &[u32] = &[1, 0, 0, 1, 2, 1, 1, 1];
    let lists: &[&[u32]] = &[
        &[1],
        &[1, 0, 0],
        &[1, 0, 0, 1, 2],
        &[1, 2, 0, 1],
        &[1, NONE, 0, 1],
        &[1, 0, 0, 3],
        &[1, 0, 2, 1],
        &[1, 0, 3, 0],
        &[1, 0, NONE, 1],
        &[1, 0, 1, NONE],
        &[1, 0, NONE, NONE],
        &[8, 0, 0, 1],
        &[NONE, 0, 0, 1],
        &[1, 0, 0, 1, 1, 0, 0, 1],
        &[1, 0, 0, 1, 2, 0, 0, 1, 1, 0, 0, 1],
        // twice, though it would be passed over
        &[0, 0, 0, 0, 0, 0, 0, 0],
        &[1, 0, 0, 1, 2, 0, 0, 1, 8, 0, 0, 1],
    ];
    let components: &[u32] = &[2, 0, 5, 1, 0, 0];
    let mut draft = story(&[divert(None), divert(None), choice(None)]);
    node(&mut draft, 3)[5] = 0;
    for entries in lists {
        for components in [components, &[2, 0, 5, 1, 0, 0, 0, 0]] {
            let paths = Paths { entries, components, names: b"night" };
            assert_eq!(resolved(&mut draft, &paths), Err(Refusal::BAD_DRAFT), "{entries:?}");
        }
    }
    let past = Paths { entries: right, components: &components[..5], names: b"night" };
    assert_eq!(resolved(&mut draft, &past), Err(Refusal::BAD_DRAFT));
    // a path without components behind the last one is inside
    let end = Paths { entries: &[1, 0, 2, 0], components, names: b"night" };
    assert_eq!(resolved(&mut draft, &end), Ok(()));
    assert_eq!(resolved(&mut draft, &Paths { entries: right, components, names: b"night" }), Ok(()));
}

/// Entries in any order, components that several paths have or none has.
#[test]
fn any_order() {
    let components = [9, 9, 9, 2, 0, 5, 1, 1, 0];
    let entries = [[3, 0, 1, 1], [1, 0, 1, 2], [4, 1, 2, 1], [2, 0, 0, 0]];
    let mut orders = vec![];
    for first in 0..4 {
        for second in 0..4 {
            let mut order = entries;
            order.swap(0, first);
            order.swap(1, second);
            orders.push(order);
        }
    }
    for order in orders {
        let mut draft = story(&kinds("nowhere"));
        let paths = Paths { entries: order.as_flattened(), components: &components, names: b"night" };
        assert_eq!(resolved(&mut draft, &paths), Ok(()));
        let targets = [1, 2, 3].map(|number| node(&mut draft, number)[5]);
        assert_eq!((targets, node(&mut draft, 4)[7]), ([INNER, 0, NIGHT], 0));
    }
}

/// Of several nodes that fail the first decides, whatever the order of the list.
#[test]
fn first_node() {
    let (none, text, good) = (Some("nowhere"), Some("night.0"), Some("night"));
    let cases = [
        ([choice(good), divert(none), choice(text)], Refusal::NO_TARGET),
        ([choice(good), choice(text), divert(none)], Refusal::NO_CONTAINER),
        ([reference(text), value("nowhere"), divert(good)], Refusal::NO_CONTAINER),
        ([divert(none), choice(text), choice(text)], Refusal::NO_TARGET),
    ];
    for (kinds, due) in cases {
        let mut draft = story(&kinds);
        assert_eq!(by_texts(&mut draft), Err(due));
        let mut words = vec![0; draft.path_words()];
        let paths = draft.paths(&mut words).unwrap();
        let mut entries = paths.entries.as_chunks::<4>().0.to_vec();
        entries.reverse();
        assert_eq!(resolved(&mut draft, &Paths { entries: entries.as_flattened(), ..paths }), Err(due));
    }
}

/// 3, 19, 7, 20, 21, then 25: each before the next.
#[test]
fn order_of_rules() {
    let mut draft = story(&[divert(None)]);
    let nowhere = Paths { entries: &[1, 0, 0, 1], components: &[3, 0, 0], names: &[] };
    let broken = Paths { entries: &[1, 2, 0, 1], ..nowhere };
    let needed = draft.work_words();
    let mut work = vec![9; needed];
    let mut ask = |draft: &mut OpenDraft<'_>, ink, words: usize, paths| {
        let before = draft.nodes.to_vec();
        work.fill(9);
        let refusal = draft.resolve_static_targets(ink, paths, &mut work[..words]).unwrap_err();
        let early = [Refusal::BAD_INK_VERSION, Refusal::BAD_DRAFT, Refusal::TOO_FEW_WORDS].contains(&refusal);
        assert!(work.iter().all(|word| *word == if early { 9 } else { 0 }), "{refusal}");
        assert_eq!(draft.nodes, before);
        refusal
    };
    // a wrong place
    node(&mut draft, 1)[1] = 5;
    assert_eq!(ask(&mut draft, 17, 0, &broken), Refusal::BAD_INK_VERSION);
    assert_eq!(ask(&mut draft, 22, needed, &nowhere), Refusal::BAD_INK_VERSION);
    assert_eq!(ask(&mut draft, 21, 0, &broken), Refusal::BAD_DRAFT);
    assert_eq!(ask(&mut draft, 21, needed - 1, &nowhere), Refusal::TOO_FEW_WORDS);
    assert_eq!(ask(&mut draft, 21, needed, &nowhere), Refusal::DRAFT_SHAPE);
    node(&mut draft, 1)[1] = 0;
    assert_eq!(ask(&mut draft, 18, needed, &nowhere), Refusal::NO_TARGET);
    // node 1 is not reached: the root's child is node 2, its named child too
    let mut nodes = draft.nodes.to_vec();
    let mut unreached = OpenDraft { nodes: &mut nodes, children: &[2, 3, 4], ..rest(&draft) };
    assert_eq!(ask(&mut unreached, 21, needed - 1, &nowhere), Refusal::TOO_FEW_WORDS);
    assert_eq!(ask(&mut unreached, 21, needed, &nowhere), Refusal::DRAFT_UNREACHED);
    // a draft without nodes
    let mut none = OpenDraft { nodes: &mut [], ..rest(&draft) };
    assert_eq!(ask(&mut none, 21, 0, &Paths::default()), Refusal::BAD_DRAFT);
}

/// Without paths it is the writer's test up to 21, and no node changes.
#[test]
fn no_paths() {
    let mut draft = story(&kinds("night"));
    assert_eq!(by_texts(&mut draft), Ok(()));
    // nodes and children, with one word changed
    let (whole, nodes, needed) = ([&*draft.nodes, draft.children].concat(), draft.nodes.len(), draft.work_words());
    let mut seen = std::collections::BTreeSet::new();
    for at in 0..whole.len() {
        for word in [0, 1, 2, 4, 9, 11, 13, 19, 1000, NONE] {
            let mut changed = whole.clone();
            changed[at] = word;
            let mut copy = changed[..nodes].to_vec();
            let mut draft = OpenDraft { nodes: &mut copy, children: &changed[nodes..], ..rest(&draft) };
            for words in [needed, needed - 1] {
                let written = draft.draft().write(21, &mut vec![0; words], &mut [0; 2000]).map(|_| ());
                let due = match written.map_err(Refusal::from) {
                    Err(Refusal::DRAFT_PATHS) => Ok(()),
                    other => other,
                };
                let given = draft.resolve_static_targets(21, &Paths::default(), &mut vec![0; words]).map(|_| ());
                assert_eq!(given, due, "word {at} is {word}");
                assert_eq!(draft.nodes, &changed[..nodes]);
                seen.insert(given.map_err(Refusal::number).err().unwrap_or(0));
            }
        }
    }
    assert!(seen.into_iter().eq([0, 7, 19, 20, 21]));
}

/// What the published source makes of a path text.
#[test]
fn path_texts() {
    use Step::{Index, Name, Parent};
    let table: &[(&str, bool, &[Step<'_>])] = &[
        ("", false, &[]),
        (".", true, &[Name("")]),
        ("..", true, &[Name(""), Name("")]),
        ("a", false, &[Name("a")]),
        ("a.", false, &[Name("a"), Name("")]),
        (".^.^.hello.5", true, &[Parent, Parent, Name("hello"), Index(5)]),
        ("^", false, &[Parent]),
        ("^^", false, &[Name("^^")]),
        ("+5.-5.005.5a.+.-0", false, &[Index(5), Name("-5"), Index(5), Name("5a"), Name("+"), Name("-0")]),
        (" 5", false, &[Name(" 5")]),
        ("4294967294.4294967295.4294967296", false, &[Index(4_294_967_294), Index(NONE), Index(NONE)]),
        ("18446744073709551615", false, &[Index(NONE)]),
        ("18446744073709551616", false, &[Name("18446744073709551616")]),
        ("Grüße.٣", false, &[Name("Grüße"), Name("٣")]),
    ];
    for (text, relative, steps) in table {
        let path = PathText::new(text);
        assert_eq!((path.relative, &path.steps().collect::<Vec<_>>()[..]), (*relative, *steps), "{text}");
        // the same in words: of a value, whose text may be any
        let draft = story(&[NodeKind::Glue, value(text)]);
        let mut words = vec![0; draft.path_words()];
        let paths = draft.paths(&mut words).unwrap();
        assert_eq!(paths.entries, [2, u32::from(*relative), 0, steps.len() as u32]);
        for (component, step) in paths.components.as_chunks::<3>().0.iter().zip(*steps) {
            match (*component, *step) {
                ([0, 0, 0], Parent) => {}
                ([1, index, 0], Index(due)) => assert_eq!(index, due),
                ([2, offset, length], Name(due)) => {
                    assert_eq!(&paths.names[offset as usize..][..length as usize], due.as_bytes());
                }
                other => panic!("{text}: {other:?}"),
            }
        }
    }
}

/// Words for a list of paths: as many as are asked for suffice, one fewer does not; those past them stay.
#[test]
fn room_for_paths() {
    let draft = story(&[choice(Some("night.1")), NodeKind::Glue, value(""), reference(Some(".^.a.b"))]);
    let needed = draft.path_words();
    assert_eq!(needed, 4 * 3 + 3 * 5);
    for words in 0..needed {
        assert_eq!(draft.paths(&mut vec![0; words]), Err(BuildError::Full("paths")));
    }
    let mut words = vec![9; needed + 2];
    assert_eq!(draft.paths(&mut words).unwrap().entries, [1, 0, 0, 2, 3, 0, 2, 0, 4, 1, 2, 3]);
    assert_eq!(words[needed..], [9, 9]);
    let none = story(&[choice(None), divert(None), reference(None)]);
    assert_eq!((none.path_words(), none.paths(&mut []).unwrap().entries.len()), (0, 0));
    // words of a draft are any words: a text outside, one that is not UTF-8, half a node
    let mut nodes =
        [[0, 0, 13, 1000, 5, 0, 0, 0, 0, 0], [0, 0, 13, 0, NONE, 0, 0, 0, 0, 0], [0, 0, 13, 0, 1, 0, 0, 0, 0, 0]];
    let mut any = OpenDraft { nodes: &mut nodes.as_flattened_mut()[..25], strings: &[255], ..OpenDraft::default() };
    assert_eq!(any.path_words(), 8);
    assert_eq!(by_texts(&mut any), Err(Refusal::BAD_DRAFT));
}

/// Whether a text is taken: of a string value and of a named entry by the writer, then of a divert-target value whose
/// target is found from a path.
fn taken(strings: &[u8], offset: u32, length: u32) -> [bool; 3] {
    let nodes = |tag, offset, length| {
        let root = [NONE, NONE, 1, NONE, NONE, 0, 0, 2, 0, 1];
        [root, [0, 0, tag, offset, length, NONE, 0, 0, 0, 0], [0, 1, 1, NONE, NONE, 0, 2, 0, 1, 0]].concat()
    };
    let is_taken = |given: Result<(), Refusal>| {
        assert!(matches!(given, Ok(()) | Err(Refusal::BAD_DRAFT)), "{given:?}");
        given.is_ok()
    };
    let children = &[1, 2];
    let written = |nodes: &[u32], named: &[u32]| {
        let draft = Draft { nodes, children, named, strings, ..Draft::default() };
        let (mut work, mut output) = (vec![0; draft.work_words()], [0; 1000]);
        let text = strings.get(offset as usize..).and_then(|rest| rest.get(..length as usize));
        is_taken(draft.write(21, &mut work, &mut output).map_err(Refusal::from).map(|bytes| {
            let image = Image::load(bytes, &mut vec![0; load_words(bytes)]).unwrap();
            let text = str::from_utf8(text.unwrap()).unwrap();
            let value = image.node_view(1).unwrap().kind == NodeKindView::Value(ValueView::String(text));
            assert!(value || image.find_named_child(0, text) == Some(2), "{text} is in the image");
        }))
    };
    let mut open = nodes(VALUE, offset, length);
    let mut draft = OpenDraft { nodes: &mut open, children, named: &[0, 0, 2], strings, ..OpenDraft::default() };
    let found = is_taken(resolved(&mut draft, &Paths { entries: &[1, 0, 0, 1], components: &[1, 1, 0], names: &[] }));
    assert_eq!(node(&mut draft, 1)[3..6], [offset, length, if found { 2 } else { NONE }]);
    let value = written(&nodes(11, offset, length), &[0, 0, 2]);
    [value, written(&nodes(11, 0, 0), &[offset, length, 2]), found]
}

/// A text is bad if it is outside the strings or not UTF-8, whatever stands beside it. The empty text is UTF-8, also
/// between the bytes of a sequence.
#[test]
fn cut_texts() {
    let (alone, beside): (&[u8], &[u8]) = (b"\xc3\xa9", b"\xc3\xa9\xff");
    for (offset, length, good) in [
        (0, 1, false),
        (1, 1, false),
        (0, 2, true),
        (0, 0, true),
        (1, 0, true),
        (2, 0, true),
        // the end, or the byte ff
        (2, 1, false),
        (0, 3, false),
        (1, 2, false),
        (4, 0, false),
        (1, NONE, false),
        (NONE, 0, false),
        (NONE, NONE, false),
    ] {
        assert_eq!(taken(alone, offset, length), [good; 3], "({offset}, {length})");
        assert_eq!(taken(beside, offset, length), [good; 3], "({offset}, {length}) beside a byte ff");
    }
    assert_eq!((taken(alone, 3, 0), taken(beside, 3, 0)), ([false; 3], [true; 3]));
}

/// The same of all texts of some strings, against the test of the standard library.
#[test]
fn all_texts() {
    let long = "é".repeat(40);
    for strings in [
        "zé€😀z".as_bytes(),
        b"\xffz\xc3\xa9\xe2\x82\xac\xf0\x9f\x98\x80z",
        b"z\xc3\xa9\xff\xe2\x82\xac\xff\xf0\x9f\x98\x80",
        // cut at either end; overlong; a surrogate; past the last code point
        b"\xa9z\xc3\xa9\xc3",
        b"\x82\xac\xe2\x82\xac\xe2\x82",
        b"z\xc0\x80z\xe0\x80\x80\xc3\xa9",
        b"z\xed\xa0\x80\xed\x9f\xbf",
        b"\xf4\x90\x80\x80\xf4\x8f\xbf\xbf",
        long.as_bytes(),
        &[b"z", long.as_bytes(), b"\xff"].concat(),
    ] {
        for offset in 0..strings.len() + 2 {
            for length in 0..strings.len() + 2 - offset {
                let text = strings.get(offset..offset + length);
                let good = text.is_some_and(|text| str::from_utf8(text).is_ok());
                let given = taken(strings, offset as u32, length as u32);
                assert_eq!(given, [good; 3], "({offset}, {length}) of {strings:x?}");
            }
        }
    }
}
