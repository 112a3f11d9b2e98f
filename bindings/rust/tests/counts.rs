//! Who points at a node: counts of images and drafts, and targets of a draft changed with their counts.

use story_image::*;

const SAMPLES: [(&[u8], u64); 4] = [
    (include_bytes!("../../../samples/smallest.image"), 0),
    (include_bytes!("../../../samples/step.image"), 9),
    (include_bytes!("../../../samples/guide.image"), 69),
    (include_bytes!("../../../samples/largest.image"), 0),
];

/// Where the target of a kind stands among the ten words; nothing for a kind without one.
fn target_at(tag: u32) -> Option<usize> {
    match tag {
        kind::CHOICE | kind::DIVERT | kind::DIVERT_TARGET => Some(5),
        kind::REFERENCE => Some(7),
        _ => None,
    }
}

/// A plain count over the words of nodes, ten or more each.
fn plain<'n>(nodes: impl ExactSizeIterator<Item = &'n [u32]>) -> Vec<u32> {
    let mut counts = vec![0; nodes.len()];
    for target in nodes.filter_map(|words| Some(words[target_at(words[2])?])) {
        if let Some(count) = counts.get_mut(target as usize) {
            *count += 1;
        }
    }
    counts
}

fn plain_of(draft: &Draft<'_>) -> Vec<u32> {
    plain(draft.nodes.chunks_exact(10))
}

/// Counts in one word more than there are nodes: that word stays.
#[test]
fn images() {
    for (bytes, targets) in SAMPLES {
        let image = Image::load(bytes, &mut vec![0; load_words(bytes)]).unwrap();
        let numbers: Vec<u32> = (0..image.node_count()).collect();
        let mut slots = vec![Slot::default(); numbers.len()];
        let page = image.page(&numbers, &mut slots).unwrap();
        let due = plain(page.slots().iter().map(|slot| &slot.0[..]));
        let mut words = vec![7; numbers.len() + 1];
        let counts = image.target_counts(&mut words).unwrap();
        assert_eq!(counts.words(), due);
        assert_eq!(counts.total(), targets);
        assert_eq!(numbers.iter().map(|node| counts.of(*node).unwrap()).collect::<Vec<_>>(), due);
        assert_eq!((counts.of(image.node_count()), counts.of(NONE)), (None, None));
        assert_eq!(words.pop(), Some(7));
        assert_eq!(image.target_counts(&mut words).unwrap().words(), due);
        words.fill(7);
        for length in 0..words.len() {
            assert_eq!(image.target_counts(&mut words[..length]), Err(Refusal::BAD_SUMMARY));
        }
        assert!(words.iter().all(|word| *word == 7), "nothing is written");
    }
}

/// Bytes that were not accepted: a target that is no node counts for nothing, a section outside has no node.
#[test]
fn any_bytes() {
    let bytes = SAMPLES[1].0;
    let image = Image::load(bytes, &mut vec![0; load_words(bytes)]).unwrap();
    let (view, mut words) = (image.view(), vec![7; 86]);
    let due = image.target_counts(&mut words).unwrap().words().to_vec();
    assert_eq!(raw::Queries::new(bytes, view).count_targets(&mut words), Ok(()));
    assert_eq!(words, due);
    // node 3 is a divert
    let mut damaged = bytes.to_vec();
    let word = view.nodes.offset as usize + 40 * 3 + 20;
    let target = u32::from_le_bytes(bytes[word..][..4].try_into().unwrap());
    for outside in [86, 87, NONE - 1, NONE] {
        damaged[word..][..4].copy_from_slice(&outside.to_le_bytes());
        assert_eq!(raw::Queries::new(&damaged, view).count_targets(&mut words), Ok(()));
        assert_eq!(words[target as usize], due[target as usize] - 1);
        assert_eq!(words.iter().sum::<u32>(), due.iter().sum::<u32>() - 1);
    }
    for cut in [0, 88, view.nodes.offset as usize + 40 * 86 - 1] {
        assert_eq!(raw::Queries::new(&bytes[..cut], view).count_targets(&mut []), Ok(()), "no node in {cut} bytes");
    }
    let queries = raw::Queries::new(&bytes[..view.nodes.offset as usize + 40 * 86], view);
    assert_eq!(queries.count_targets(&mut words[..85]), Err(Refusal::BAD_SUMMARY));
    assert_eq!(queries.count_targets(&mut words), Ok(()));
    assert_eq!(words, due);
}

const CHOICE: u32 = 1;
const DIVERT: u32 = 2;
const VALUE: u32 = 3;
const REFERENCE: u32 = 4;
const GLUE: u32 = 5;
const NIGHT: u32 = 6;
const INNER: u32 = 7;
const LAST: u32 = 8;
const NODES: u32 = 9;

fn divert(target: Option<u32>) -> NodeKind<'static> {
    NodeKind::Divert {
        path: Some("night"),
        target,
        variable_name: None,
        external_args: INNER,
        conditional: false,
        external: false,
        pushes_to_stack: false,
        stack_push_type: PushPopType::Tunnel,
    }
}

/// A choice, a divert, a value, a reference and a glue; the named container night with a container and a divert. It is
/// never given back.
fn story() -> OpenDraft<'static> {
    let room = Room {
        nodes: vec![0; 10 * NODES as usize].leak(),
        children: vec![0; 7].leak(),
        named: vec![0; 3].leak(),
        strings: vec![0; 100].leak(),
        ..Room::default()
    };
    let mut draft = DraftBuilder::new(room).unwrap();
    for kind in [
        NodeKind::ChoicePoint { path: None, target: NIGHT, flags: INNER as i32 },
        divert(Some(INNER)),
        NodeKind::DivertTarget { path: "night", target: NIGHT },
        NodeKind::VariableReference { name: "seen", count_path: Some("night"), count_target: Some(NIGHT) },
        NodeKind::Glue,
    ] {
        draft.child(DraftBuilder::ROOT, kind).unwrap();
    }
    assert_eq!(draft.named_container(DraftBuilder::ROOT, "night"), Ok(NIGHT));
    assert_eq!(draft.child(NIGHT, NodeKind::Container { name: None, count_flags: INNER as i32 }), Ok(INNER));
    assert_eq!(draft.child(NIGHT, divert(None)), Ok(LAST));
    draft.finish_open()
}

const COUNTS: [u32; NODES as usize] = [0, 0, 0, 0, 0, 0, 3, 1, 0];

/// The target word of a node.
fn target_word<'d>(draft: &'d mut OpenDraft<'_>, node: u32) -> &'d mut u32 {
    let words = &mut draft.nodes.as_chunks_mut::<10>().0[node as usize];
    &mut words[target_at(words[2]).unwrap()]
}

/// A draft has the counts of its image, whose nodes here have the same numbers.
#[test]
fn drafts() {
    let open = story();
    let draft = open.draft();
    let mut words = [7; NODES as usize + 2];
    let counts = draft.count_targets(&mut words).unwrap();
    assert_eq!((counts.words(), counts.total()), (&COUNTS[..], 4));
    assert_eq!(plain_of(&draft), COUNTS);
    assert_eq!(words[NODES as usize..], [7, 7]);
    let mut work = vec![0; draft.work_words()];
    let mut output = vec![0; draft.image_length(21, &mut work).unwrap()];
    let bytes = draft.write(21, &mut work, &mut output).unwrap();
    let image = Image::load(bytes, &mut vec![0; load_words(bytes)]).unwrap();
    assert_eq!(image.target_counts(&mut words).unwrap().words(), COUNTS);
    words.fill(7);
    for length in 0..NODES as usize {
        assert_eq!(draft.count_targets(&mut words[..length]), Err(Refusal::BAD_SUMMARY));
    }
    assert_eq!(Draft::default().count_targets(&mut words), Err(Refusal::BAD_DRAFT));
    assert_eq!(Draft { nodes: &open.nodes[..11], ..draft }.count_targets(&mut []), Err(Refusal::BAD_DRAFT));
    assert!(words.iter().all(|word| *word == 7), "nothing is written");
}

/// Sets a target and sees that it is done, or that nothing is.
fn set(counted: &mut CountedDraft<'_, '_>, node: u32, target: Option<u32>) -> Result<(), Refusal> {
    let (mut nodes, mut counts) = (counted.draft().nodes.to_vec(), counted.counts().words().to_vec());
    let given = counted.set_target(node, target);
    if given.is_ok() {
        let words = &mut nodes.as_chunks_mut::<10>().0[node as usize];
        let word = &mut words[target_at(words[2]).unwrap()];
        let (old, new) = (*word, target.unwrap_or(NONE));
        *word = new;
        for (node, down) in [(old, true), (new, false)] {
            if old != new && node != NONE {
                let count = &mut counts[node as usize];
                *count = if down { *count - 1 } else { *count + 1 };
            }
        }
    }
    assert_eq!(counted.draft().nodes, nodes, "{node} to {target:?}: {given:?}");
    assert_eq!(counted.counts().words(), counts, "{node} to {target:?}: {given:?}");
    given
}

/// Each node with each target; counts that are right stay right.
#[test]
fn each_kind() {
    let containers = [0, NIGHT, INNER];
    for node in 0..=NODES {
        for target in (0..NODES + 2).map(Some).chain([Some(NONE - 1), Some(NONE), None]) {
            let (mut draft, mut words) = (story(), [7; NODES as usize]);
            let mut counted = draft.count_targets(&mut words).unwrap();
            let word = target.unwrap_or(NONE);
            let allowed = match node {
                CHOICE => containers.contains(&word),
                DIVERT | LAST => word < NODES || word == NONE,
                VALUE => word < NODES,
                REFERENCE => containers.contains(&word) || word == NONE,
                _ => false,
            };
            let due = if allowed { Ok(()) } else { Err(Refusal::NOT_FOUND) };
            assert_eq!(set(&mut counted, node, target), due, "{node} to {target:?}");
            assert_eq!(plain_of(&counted.draft()), counted.counts().words());
        }
    }
}

/// A target set where there was none, cleared, left as it is.
#[test]
fn absent() {
    let (mut draft, mut words) = (story(), [7; NODES as usize + 1]);
    let mut counted = draft.count_targets(&mut words).unwrap();
    assert_eq!(counted.counts().words().len(), NODES as usize, "no word more than there are nodes");
    assert_eq!(set(&mut counted, LAST, None), Ok(()));
    assert_eq!(set(&mut counted, LAST, Some(LAST)), Ok(()));
    assert_eq!((counted.counts().of(LAST), counted.counts().total()), (Some(1), 5));
    assert_eq!(set(&mut counted, LAST, Some(LAST)), Ok(()));
    assert_eq!(set(&mut counted, LAST, None), Ok(()));
    assert_eq!(set(&mut counted, REFERENCE, None), Ok(()));
    assert_eq!((counted.counts().of(NIGHT), counted.counts().total()), (Some(2), 3));
    assert_eq!(set(&mut counted, CHOICE, None), Err(Refusal::NOT_FOUND));
    assert_eq!(set(&mut counted, VALUE, None), Err(Refusal::NOT_FOUND));
    assert_eq!(words[NODES as usize], 7);
}

/// Counts that were kept are trusted: those that are not right are refused only where a word cannot take its step.
#[test]
fn resumed() {
    let mut draft = story();
    for length in 0..NODES as usize {
        let mut words = vec![7; length];
        assert_eq!(CountedDraft::resume(&mut draft, &mut words).unwrap_err(), Refusal::BAD_SUMMARY);
        assert_eq!(draft.count_targets(&mut words).unwrap_err(), Refusal::BAD_SUMMARY);
        assert!(words.iter().all(|word| *word == 7));
    }
    // the old node's word, the new one's, what is given
    for (old, new, due) in [
        (0, 5, Err(Refusal::BAD_SUMMARY)),
        (0, NONE, Err(Refusal::BAD_SUMMARY)),
        (1, NONE, Err(Refusal::BAD_SUMMARY)),
        (NONE, NONE, Err(Refusal::BAD_SUMMARY)),
        (NONE, NONE - 1, Ok(())),
        (1, 0, Ok(())),
    ] {
        let (mut draft, mut words) = (story(), [0; NODES as usize + 1]);
        (words[NIGHT as usize], words[INNER as usize]) = (old, new);
        let mut counted = CountedDraft::resume(&mut draft, &mut words).unwrap();
        assert_eq!(set(&mut counted, CHOICE, Some(NIGHT)), Ok(()), "no step to itself");
        assert_eq!(set(&mut counted, CHOICE, Some(GLUE)), Err(Refusal::NOT_FOUND), "18 before the step");
        assert_eq!(set(&mut counted, CHOICE, Some(INNER)), due, "{old}, {new}");
        assert_eq!(words[NODES as usize], 0);
    }
}

/// 19 before all else, by each change too; drafts that the writer refuses later are taken.
#[test]
fn broken() {
    let (mut draft, mut words) = (story(), [0; NODES as usize]);
    *target_word(&mut draft, VALUE) = NONE;
    assert_eq!(draft.count_targets(&mut []).unwrap_err(), Refusal::BAD_DRAFT);
    let mut counted = CountedDraft::resume(&mut draft, &mut words).unwrap();
    for (node, target) in [(VALUE, Some(NIGHT)), (NONE, None), (GLUE, Some(0)), (DIVERT, None)] {
        assert_eq!(set(&mut counted, node, target), Err(Refusal::BAD_DRAFT));
    }
    let mut draft = OpenDraft::default();
    let mut counted = CountedDraft::resume(&mut draft, &mut []).unwrap();
    assert_eq!(counted.set_target(0, None), Err(Refusal::BAD_DRAFT));
    // a place that is wrong is 21
    let mut draft = story();
    draft.nodes[11] = 1;
    let mut work = vec![0; draft.work_words()];
    assert_eq!(draft.draft().image_length(21, &mut work), Err(Refusal::DRAFT_SHAPE));
    assert_eq!(set(&mut draft.count_targets(&mut words).unwrap(), CHOICE, Some(0)), Ok(()));
}

/// Any changes one after the other: the counts are those of a plain count each time, and the draft stays good.
#[test]
fn chains() {
    let (mut draft, mut words, mut seed) = (story(), [0; NODES as usize], 5u32);
    let mut counted = draft.count_targets(&mut words).unwrap();
    let mut changed = 0;
    for _ in 0..2000 {
        seed = seed.wrapping_mul(1664525).wrapping_add(1013904223);
        let (node, target) = (seed >> 8 & 15, seed >> 16 & 15);
        let given = set(&mut counted, node % (NODES + 1), (target < NODES + 2).then_some(target));
        assert!(matches!(given, Ok(()) | Err(Refusal::NOT_FOUND)), "{given:?}");
        changed += u32::from(given.is_ok());
        assert_eq!(plain_of(&counted.draft()), counted.counts().words());
    }
    assert!(changed > 300, "{changed} changed");
    let kept = words;
    assert_eq!(draft.count_targets(&mut words).unwrap().counts().words(), kept);
}
