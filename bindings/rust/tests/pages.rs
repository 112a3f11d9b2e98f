//! Pages of the repository's samples, views of slots, and what a page leaves of the words that it is lent.

use story_image::raw::Queries;
use story_image::{
    DraftBuilder, Image, NONE, NodeKind, NodeKindOf, NodeKindView, Page, Refusal, Room, Section, Slot, ValueOf,
    ValueView, View, ffi, load_words,
};

const SMALLEST: &[u8] = include_bytes!("../../../samples/smallest.image");
const STEP: &[u8] = include_bytes!("../../../samples/step.image");
const GUIDE: &[u8] = include_bytes!("../../../samples/guide.image");
const LARGEST: &[u8] = include_bytes!("../../../samples/largest.image");
const TAG: &[u8] = include_bytes!("../../../samples/tag.image");

const EMPTY: [u32; Slot::WORDS] = [18, 0, 0, 0, 0, 0, 0, 0, 0, 0, 0, 0];
const MARK: u32 = 0x5a5a_5a5a;
const MARKED: Slot = Slot([MARK; Slot::WORDS]);

fn image(bytes: &[u8]) -> Image<'_> {
    Image::load(bytes, &mut vec![0; load_words(bytes)]).unwrap()
}

fn word(bytes: &[u8], at: usize) -> u32 {
    u32::from_le_bytes(bytes[at..at + 4].try_into().unwrap())
}

/// The ink version, then offsets and counts, as the header has them.
fn view_by_header(bytes: &[u8]) -> View {
    View::from(std::array::from_fn(|k| word(bytes, if k == 0 { 12 } else { 16 + 4 * k })))
}

/// The slot that is due: a node's ten words in the image and two zeros; 18 and eleven zeros without a view.
fn slot_due(asked: &Queries<'_>, node: u32) -> [u32; Slot::WORDS] {
    let at = asked.view().nodes.offset as usize + 40 * node as usize;
    let held = |k| if k < 10 { word(asked.bytes(), at + 4 * k) } else { 0 };
    asked.node_words(node).map_or(EMPTY, |_| std::array::from_fn(held))
}

/// Raw pages of these numbers in more and in fewer words.
fn raw_pages(asked: &Queries<'_>, numbers: &[u32]) {
    let due: Vec<u32> = numbers.iter().flat_map(|node| slot_due(asked, *node)).collect();
    let needed = Slot::WORDS * numbers.len();
    for words in [needed, needed + 1, needed + 30, needed.saturating_sub(1), needed / 2, 1, 0] {
        let mut slots = vec![MARK; words];
        let answer = asked.page(numbers, &mut slots);
        if words < needed {
            assert_eq!((answer, slots), (Err(Refusal::TOO_FEW_SLOTS), vec![MARK; words]));
            continue;
        }
        assert_eq!((answer, &slots[..needed]), (Ok(()), &due[..]));
        assert!(slots[needed..].iter().all(|word| *word == MARK));
        for (node, slot) in numbers.iter().zip(slots.chunks_exact(Slot::WORDS)) {
            assert_eq!(asked.slot_view_words(slot), asked.node_words(*node));
        }
    }
}

/// What a page shows at each index is what its slot and the lone call show.
fn shows(image: &Image<'_>, page: &Page<'_, '_>, numbers: &[u32]) {
    assert_eq!((page.numbers(), page.slots().len()), (numbers, numbers.len()));
    for (index, (node, slot)) in numbers.iter().zip(page.slots()).enumerate() {
        assert_eq!(slot.0, slot_due(image.raw(), *node));
        let lone = image.node_view(*node);
        assert_eq!((page.node_view(index), slot.has_view()), (lone, *node < image.node_count()));
        assert_eq!((slot.kind(), slot.fields()), (slot.0[2], &slot.0[3..10]));
        if let Some(view) = lone {
            assert_eq!((slot.parent(), slot.place()), (view.parent, view.child_index));
        }
    }
    assert_eq!(page.node_view(numbers.len()), None);
    assert!(page.nodes().eq(numbers.iter().map(|node| (*node, image.node_view(*node)))));
}

/// Every accepted sample: all nodes and the number past the last; forty from the last one down, each twice; node 0
/// twice beside numbers that are no nodes; none.
#[test]
fn samples() {
    for bytes in [SMALLEST, STEP, GUIDE, LARGEST] {
        let image = image(bytes);
        let count = image.node_count();
        let falling = (0..40).map(|k| (count - 1).wrapping_sub(k / 2)).collect();
        for numbers in [(0..=count).collect(), falling, vec![0, 0, NONE, count], vec![]] {
            let mut slots = vec![MARKED; numbers.len() + 2];
            shows(&image, &image.page(&numbers, &mut slots).unwrap(), &numbers);
            assert_eq!(slots[numbers.len()..], [MARKED; 2]);
            raw_pages(image.raw(), &numbers);
        }
    }
}

/// Words of step.image that are known: the root's, those of a text, and of numbers that are no nodes.
#[test]
fn known_slots() {
    let image = image(STEP);
    let mut slots = [MARKED; 5];
    let page = image.page(&[0, 1, 0, NONE, 86], &mut slots).unwrap();
    let [root, text, again, none, past] = page.slots() else { panic!("five slots") };
    assert_eq!((root.parent(), root.place(), root.kind()), (None, None, 1));
    assert_eq!(root.fields()[..2], [NONE, NONE]);
    assert_eq!((text.parent(), text.place(), text.kind()), (Some(0), Some(0), 11));
    assert_eq!((root, &none.0, &past.0), (again, &EMPTY, &EMPTY));
    assert_eq!((&root.0[10..], &text.0[10..]), (&[0, 0][..], &[0, 0][..]));
    assert_eq!(page.node_view(1).unwrap().kind, NodeKindView::Value(ValueView::String("Good evening.")));
    assert_eq!((page.node_view(3), page.node_view(4), page.node_view(5)), (None, None, None));
    assert!(root.has_view() && !none.has_view() && !past.has_view() && !Slot::default().has_view());
}

/// With fewer slots than numbers nothing is written.
#[test]
fn too_few_slots() {
    let image = image(STEP);
    let numbers: Vec<u32> = (0..40).collect();
    for room in [0, 1, 20, 39] {
        let mut slots = vec![MARKED; room];
        assert_eq!(image.page(&numbers, &mut slots).unwrap_err(), Refusal::TOO_FEW_SLOTS);
        assert_eq!(slots, vec![MARKED; room]);
    }
    // before any node is looked at: these are none
    assert_eq!(image.page(&[NONE; 3], &mut [MARKED; 2]).unwrap_err().number(), 24);
    assert!(image.page(&[], &mut []).unwrap().slots().is_empty());
}

/// Texts are the parts of the image that the lone call names, and lists have their items.
#[test]
fn texts_and_lists() {
    let image = image(GUIDE);
    let numbers: Vec<u32> = (0..image.node_count()).rev().collect();
    let mut slots = vec![MARKED; numbers.len()];
    let (mut texts, mut lists) = (0, 0);
    for (node, view) in image.page(&numbers, &mut slots).unwrap().nodes() {
        match (view.unwrap().kind, image.node_view(node).unwrap().kind) {
            (NodeKindView::Value(ValueView::String(text)), NodeKindView::Value(ValueView::String(lone))) => {
                assert_eq!((text, text.as_ptr()), (lone, lone.as_ptr()));
                texts += 1;
            }
            (NodeKindView::Value(ValueView::List(list)), NodeKindView::Value(ValueView::List(lone))) => {
                assert!(list.items().eq(lone.items()) && list.origins().eq(lone.origins()));
                lists += 1;
            }
            (kind, lone) => assert_eq!(kind, lone),
        }
    }
    assert!(texts > 0 && lists > 0);
}

/// A node's parent may be 18: its kind tells its slot from one without a view.
#[test]
fn parent_18() {
    let room = Room { nodes: &mut [0; 200], children: &mut [0; 19], ..Room::default() };
    let mut draft = DraftBuilder::new(room).unwrap();
    let container = NodeKind::Container { name: None, count_flags: 0 };
    // each the only child of the one before
    let last = (0..19).fold(DraftBuilder::ROOT, |parent, _| draft.child(parent, container).unwrap());
    let (draft, mut output) = (draft.finish(), [0; 2000]);
    let image = image(draft.write(21, &mut vec![0; draft.work_words()], &mut output).unwrap());
    let (numbers, mut slots) = ([last, 20], [MARKED; 2]);
    let page = image.page(&numbers, &mut slots).unwrap();
    let [node, none] = page.slots() else { panic!("two slots") };
    assert_eq!((node.parent(), node.0[0], none.0[0]), (Some(18), 18, 18));
    assert_eq!((node.kind(), node.has_view(), none.kind(), none.has_view()), (1, true, 0, false));
    assert_eq!((page.node_view(0), page.node_view(1)), (image.node_view(19), None));
    assert!(image.node_view(19).is_some());
}

/// Pages of one image and of several stand side by side, and outlive the `Image`, which is only a view of its bytes.
#[test]
fn several_pages() {
    let (mut first, mut second) = ([MARKED; 2], [MARKED; 2]);
    let numbers = [1, 0];
    let pages = {
        let (step, guide) = (image(STEP), image(GUIDE));
        [step.page(&numbers, &mut first).unwrap(), guide.page(&numbers, &mut second).unwrap()]
    };
    for (page, bytes) in pages.iter().zip([STEP, GUIDE]) {
        shows(&image(bytes), page, &numbers);
    }
    let copy = pages[0];
    assert_eq!(copy.slots(), pages[0].slots());
}

/// Nodes that no load accepts: tag 15, a text outside the strings, a list outside the payload have no view; a divert's
/// path outside is not in its view, and stands in its slot.
#[test]
fn damaged_nodes() {
    let view = image(STEP).view();
    let mut bytes = STEP.to_vec();
    let mut set = |node: usize, k: usize, value: u32| {
        let at = view.nodes.offset as usize + 40 * node + 4 * k;
        bytes[at..at + 4].copy_from_slice(&value.to_le_bytes());
    };
    // a string, a divert with a path, a command, a list
    let past = view.strings.count + 1;
    set(1, 4, past);
    set(3, 3, past);
    set(6, 2, 15);
    set(13, 3, view.payload.count + 1);
    let asked = Queries::new(&bytes, view);
    let numbers: Vec<u32> = (0..=view.nodes.count).collect();
    let mut words = vec![MARK; Slot::WORDS * numbers.len()];
    asked.page(&numbers, &mut words).unwrap();
    let slots: Vec<&[u32]> = words.chunks_exact(Slot::WORDS).collect();
    let empty: Vec<usize> = (0..slots.len()).filter(|node| slots[*node] == EMPTY).collect();
    assert_eq!(empty, [1, 6, 13, view.nodes.count as usize]);
    assert_eq!((slots[3][2], slots[3][3]), (4, past));
    assert!(matches!(asked.slot_view(slots[3]).unwrap().kind, NodeKindOf::Divert { path: None, .. }));
    raw_pages(&asked, &numbers);
}

/// Views of other bytes: slots are those of the lone call, none of a nodes section outside the bytes.
#[test]
fn any_view() {
    let numbers: Vec<u32> = (0..120).chain([NONE]).collect();
    let (strange, view) = (Section { offset: NONE, count: NONE }, image(STEP).view());
    let over = STEP.len() as u32 - 40 * view.nodes.count + 1;
    for outside in [
        View::default(),
        View { nodes: strange, ..view },
        View { nodes: Section { offset: over, ..view.nodes }, ..view },
    ] {
        let asked = Queries::new(STEP, outside);
        assert!(numbers.iter().all(|node| slot_due(&asked, *node) == EMPTY));
        raw_pages(&asked, &numbers);
    }
    for other in [
        View { strings: strange, ..view },
        View { payload: strange, ..view },
        View { nodes: Section { offset: 3, count: 100 }, ..view },
    ] {
        for bytes in [STEP, &STEP[..500], &[]] {
            raw_pages(&Queries::new(bytes, other), &numbers);
        }
    }
    raw_pages(&Queries::new(TAG, view_by_header(TAG)), &numbers);
}

/// Words that no page wrote are taken as a node's; fewer than ten have no view, and none past them is looked at.
#[test]
fn views_of_words() {
    let image = image(STEP);
    let asked = image.raw();
    assert_eq!((asked.slot_view(&[0; 12]), asked.slot_view(&EMPTY), asked.slot_view(&[])), (None, None, None));
    // a parent that is a container, one that is none, 18, one that is no node
    for parent in [0, 1, 18, NONE - 1] {
        let glue = [parent, 8, 5, MARK, MARK, MARK, MARK, MARK, MARK, MARK];
        let seen = asked.slot_view(&glue).unwrap();
        assert_eq!((seen.parent, seen.child_index, seen.kind), (Some(parent), Some(8), NodeKindOf::Glue));
    }
    let int = [NONE, NONE, 9, (-3_i32) as u32, 0, 0, 0, 0, 0, 0];
    let seen = asked.slot_view(&int).unwrap();
    assert_eq!((seen.parent, seen.kind), (None, NodeKindOf::Value(ValueOf::Int(-3))));
    assert_eq!((asked.slot_view(&int[..9]), asked.slot_view_words(&int[..9])), (None, None));
    for node in 0..image.node_count() {
        let slot = slot_due(asked, node);
        let long = [&slot[..10], &[MARK; 5]].concat();
        assert_eq!(asked.slot_view(&slot[..9]), None);
        for words in 10..=long.len() {
            assert_eq!(asked.slot_view_words(&long[..words]), asked.node_words(node));
            assert_eq!(asked.slot_view(&long[..words]), asked.node_view(node));
        }
    }
}

/// Number and slots of a page of nodes 0 and 1 with so many words of a view and of slots.
fn page_words(view_words: usize, words: usize) -> (u32, Vec<u32>) {
    let (view, mut slots) = (image(STEP).view().words(), vec![MARK; words]);
    let (bytes, numbers) = (STEP, [0, 1]);
    // SAFETY: the slices live through the call, and the slots alone are written.
    let number = unsafe {
        let (view, slots) = (view.as_ptr(), slots.as_mut_ptr());
        ffi::story_image_page(bytes.as_ptr(), bytes.len(), view, view_words, numbers.as_ptr(), 2, slots, words)
    };
    (number, slots)
}

/// Number and answer of the view of node 0's slot with so many words of a view and of an answer.
fn root_view(view_words: usize, words: usize) -> (u32, Vec<u32>) {
    let (view, mut answer) = (image(STEP).view().words(), vec![MARK; words]);
    let slot = slot_due(image(STEP).raw(), 0);
    // SAFETY: the slices live through the call, and the answer alone is written.
    let number = unsafe {
        let (view, answer) = (view.as_ptr(), answer.as_mut_ptr());
        ffi::story_image_slot_view(STEP.as_ptr(), STEP.len(), view, view_words, slot.as_ptr(), 12, answer, words)
    };
    (number, answer)
}

/// A short view is 18 before all else; a short answer is 18; nothing is written.
#[test]
fn short() {
    assert_eq!((page_words(17, 24).0, page_words(17, 23)), (0, (24, vec![MARK; 23])));
    for words in [0, 23, 24, 30] {
        assert_eq!(page_words(16, words), (18, vec![MARK; words]));
    }
    let (number, answer) = root_view(17, 11);
    assert_eq!((number, &answer[..10], answer[10]), (0, &image(STEP).raw().node_words(0).unwrap()[..], MARK));
    assert_eq!((root_view(17, 9), root_view(16, 10)), ((18, vec![MARK; 9]), (18, vec![MARK; 10])));
}
