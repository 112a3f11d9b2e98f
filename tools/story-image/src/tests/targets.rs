//! What leads where, in small images and against a plain count.

use super::{CONTAINER, add, divert, sample, written};
use crate::call::Call;
use crate::commands;
use crate::each::Shown;
use crate::end::Status;
use crate::leads::{Lead, Leads};
use crate::nesting::Nesting;
use crate::paths::Paths;
use crate::targets;
use inspect::library::{self, Image, Reader};
use story_image::{Draft, DraftBuilder, NONE, NodeKind};

/// What is shown behind the line `ok V N`, and how the call ends; words are those behind FILE.
fn asked(bytes: &[u8], words: &[&str]) -> (Vec<String>, Status) {
    let words: Vec<_> = ["-"].iter().chain(words).map(|word| word.into()).collect();
    let call = Call::parse(commands::find("targets").unwrap(), &words).unwrap();
    let (shown, mut out) = (Shown::new(&call, "-", bytes), vec![]);
    targets::show(&shown, &mut out).unwrap();
    (String::from_utf8(out).unwrap().lines().skip(1).map(str::to_owned).collect(), shown.status())
}

fn lines(bytes: &[u8], words: &[&str]) -> Vec<String> {
    let (lines, status) = asked(bytes, words);
    assert_eq!(status, Status::Accepted);
    lines
}

/// Nodes 1 to 7 in the root, 5 and 6 in the container 4; 8 is `night` with 9 to 11, 12 and 13 are in the container 11.
fn small() -> Vec<u8> {
    written(20, 200, |draft| {
        let night = draft.named_container(DraftBuilder::ROOT, "night").unwrap();
        let string = draft.child(night, NodeKind::String("Sleep well.")).unwrap();
        draft.child(night, NodeKind::Glue).unwrap();
        let inner = draft.child(night, CONTAINER).unwrap();
        add(draft, inner, &[divert(DraftBuilder::ROOT, false), divert(string, true)]);
        let value = NodeKind::DivertTarget { path: "night.2", target: inner };
        let count = NodeKind::VariableReference { name: "", count_path: None, count_target: Some(night) };
        add(draft, DraftBuilder::ROOT, &[divert(string, false), value, count]);
        let third = draft.child(DraftBuilder::ROOT, CONTAINER).unwrap();
        add(draft, third, &[NodeKind::ChoicePoint { path: None, target: night, flags: 0 }, divert(third, false)]);
        let none = NodeKind::VariableReference { name: "night", count_path: None, count_target: None };
        add(draft, DraftBuilder::ROOT, &[none]);
    })
}

#[test]
fn containers_by_how_many_lead_to_them() {
    let table = [
        "  to it  below it    node  path",
        "      2         2       8  \"night\"",
        "      1         0       0  (root)",
        "      1         0       4  \"3\"",
        "      1         0      11  \"night.2\"",
    ];
    assert_eq!(lines(&small(), &[]), table);
}

#[test]
fn what_leads_to_a_container() {
    let night = [
        "8 container \"night\"",
        "2 lead to it",
        "  3 reference in (root)",
        "  5 choice in \"3\"",
        "2 lead from outside to nodes below it",
        "  1 divert -> 9 in (root)",
        "  2 divert target -> 11 in (root)",
    ];
    assert_eq!(lines(&small(), &["8"]), night);
    assert_eq!(lines(&small(), &["night"]), night);
    let inner = [
        "11 container \"night.2\"",
        "1 leads to it",
        "  2 divert target in (root)",
        "0 lead from outside to nodes below it",
    ];
    assert_eq!(lines(&small(), &["night.2"]), inner);
    let root =
        ["0 container (root)", "1 leads to it", "  12 divert in \"night.2\"", "0 lead from outside to nodes below it"];
    assert_eq!(lines(&small(), &["0"]), root);
    assert_eq!(lines(&small(), &[""]), root);
    assert_eq!(lines(&small(), &["--path", ""]), root);
}

#[test]
fn what_leads_to_another_node() {
    let string = ["9 string in \"night\"", "2 lead to it", "  1 divert in (root)", "  13 divert in \"night.2\""];
    assert_eq!(lines(&small(), &["9"]), string);
    assert_eq!(lines(&small(), &["10"]), ["10 glue in \"night\"", "0 lead to it"]);
    assert_eq!(lines(&small(), &["13"]), ["13 divert in \"night.2\"", "0 lead to it"]);
}

/// The container in place 3 is node 4, and leads to itself; node 3 is a read count.
#[test]
fn digits_are_a_path_if_the_call_says_so() {
    assert_eq!(lines(&small(), &["3"]), ["3 reference in (root)", "0 lead to it"]);
    assert_eq!(lines(&small(), &["03"]), lines(&small(), &["3"]));
    let third = ["4 container \"3\"", "1 leads to it", "  6 divert in \"3\"", "0 lead from outside to nodes below it"];
    assert_eq!(lines(&small(), &["--path", "3"]), third);
    assert_eq!(asked(&small(), &["--path", "03"]), (vec![], Status::Refused));
}

#[test]
fn nodes_and_paths_that_are_not_there() {
    // node 9 is no container, whatever its place
    for word in
        ["14", "4294967295", "4294967296", "99999999999999999999", "nigh", "night.", "night.0", ".3", "nights", "."]
    {
        assert_eq!(asked(&small(), &[word]), (vec![], Status::Refused), "{word}");
    }
    assert_eq!(asked(&sample("tag.image"), &["0"]).1, Status::Refused);
}

#[test]
fn texts_are_escaped() {
    let bytes = written(20, 200, |draft| {
        draft.named_container(DraftBuilder::ROOT, "a\"b\\\n\u{1b}\u{e9}").unwrap();
        draft.named_container(DraftBuilder::ROOT, "(root)").unwrap();
    });
    let paths: Vec<_> = lines(&bytes, &[]).iter().skip(1).map(|line| line[27..].to_owned()).collect();
    assert_eq!(paths, ["(root)", "\"(root)\"", "\"a\\\"b\\\\\\n\\u{1b}\u{e9}\""]);
}

/// A name may have dots, and then look like two.
#[test]
fn names_with_dots() {
    let bytes = written(20, 200, |draft| {
        let a = draft.named_container(DraftBuilder::ROOT, "a").unwrap();
        draft.named_container(a, "b.c").unwrap();
        let ab = draft.named_container(DraftBuilder::ROOT, "a.b").unwrap();
        draft.named_container(ab, "d").unwrap();
        draft.named_container(ab, ".").unwrap();
    });
    for path in ["a", "a.b.c", "a.b", "a.b.d", "a.b.."] {
        assert_eq!(lines(&bytes, &[path])[0].split_once(' ').unwrap().1, format!("container {path:?}"));
    }
    for path in ["a.b.", "b.c", "a.d", "a.b.c.d"] {
        assert_eq!(asked(&bytes, &[path]).1, Status::Refused);
    }
}

/// Counts that are not those of the list are a fault, whichever is right.
#[test]
fn counts_are_held_against_the_list() {
    let bytes = small();
    let Leads { all, counts } = Leads::new(&library::load(&bytes).unwrap()).unwrap();
    assert_eq!(all.iter().map(|lead| lead.node).collect::<Vec<_>>(), [1, 2, 3, 5, 6, 12, 13]);
    assert_eq!(counts, [1, 0, 0, 0, 1, 0, 0, 0, 2, 2, 0, 1, 0, 0]);
    for node in 0..counts.len() {
        let mut wrong = counts.clone();
        wrong[node] += 1;
        assert!(Leads::counted(all.clone(), wrong).is_none());
    }
    assert!(Leads::counted(all.clone(), vec![]).is_none());
    assert!(Leads::counted(all[1..].to_vec(), counts.clone()).is_none());
    assert!(Leads::counted(all, counts).is_some());
}

/// The numbers that a formula makes of a seed.
fn numbers(seed: u64) -> impl FnMut(usize) -> usize {
    let mut state = seed;
    move |below| {
        state = state.wrapping_mul(6364136223846793005).wrapping_add(1442695040888963407);
        (state >> 33) as usize % below
    }
}

/// Any tree with any targets.
fn any(seed: u64) -> Vec<u8> {
    let mut number = numbers(seed);
    written(130, 4000, |draft| {
        let (mut containers, deep) = (vec![DraftBuilder::ROOT], number(20) + 1);
        for node in 1..120 {
            // the later containers often, so that some are deep
            let parent = containers[containers.len() - 1 - number(containers.len().min(deep))];
            let target = containers[number(containers.len())];
            let kind = match number(6) {
                0 => CONTAINER,
                1 => {
                    containers.push(draft.named_container(parent, &format!("n{node}")).unwrap());
                    continue;
                }
                2 => NodeKind::ChoicePoint { path: None, target, flags: 0 },
                3 => divert(number(node) as u32, false),
                4 => NodeKind::DivertTarget { path: "", target: number(node) as u32 },
                _ => NodeKind::VariableReference { name: "", count_path: None, count_target: Some(target) },
            };
            let made = draft.child(parent, kind).unwrap();
            if matches!(kind, NodeKind::Container { .. }) {
                containers.push(made);
            }
        }
    })
}

/// The node and all above it.
fn way(paths: &Paths<'_>, node: u32) -> Vec<u32> {
    std::iter::successors(Some(node), |node| paths.parent(*node)).collect()
}

fn count_plainly(image: &Image<'_>, paths: &Paths<'_>, nesting: &Nesting, leads: &Leads) {
    let holds = |outer, node| way(paths, node).contains(&outer);
    let counts = leads.counts_below(nesting);
    for outer in 0..image.node_count() {
        for node in 0..image.node_count() {
            assert_eq!(nesting.holds(outer, node), holds(outer, node));
        }
        let from_outside = |lead: &&Lead| lead.target != outer && holds(outer, lead.target) && !holds(outer, lead.node);
        let plain: Vec<_> = leads.all.iter().filter(from_outside).collect();
        assert_eq!(leads.below(outer, nesting).collect::<Vec<_>>(), plain);
        assert_eq!(counts[outer as usize], plain.len() as i64);
        let to = (0..image.node_count()).filter(|node| image.target(*node).is_some_and(|(_, target)| target == outer));
        assert_eq!(leads.counts[outer as usize], to.count() as u32);
    }
}

/// The entries of the path index: text and node.
fn index(bytes: &[u8]) -> Vec<(&str, u32)> {
    let word = |at: usize| u32::from_le_bytes(bytes[at..at + 4].try_into().unwrap());
    let (at, count, strings) = (word(60) as usize, word(64) as usize, word(76) as usize);
    let entry = |k| {
        let [offset, length, node] = [0, 4, 8].map(|field| word(at + 12 * k + field));
        (str::from_utf8(&bytes[strings + offset as usize..][..length as usize]).unwrap(), node)
    };
    (0..count).map(entry).collect()
}

/// Containers are found by the texts of the path index, and shown by them.
fn find_all(bytes: &[u8], image: &Image<'_>, paths: &Paths<'_>) {
    for (text, node) in index(bytes) {
        assert_eq!(paths.find(image, text), Some(node), "{text}");
        let shown = paths.path(node).unwrap_or_default();
        assert!(shown == text || (text.len() > 80 && text.ends_with(shown.trim_start_matches('\u{2026}'))), "{text}");
    }
}

#[test]
fn any_tree_and_the_samples() {
    let samples = ["smallest.image", "step.image", "guide.image", "note-one.image"].map(sample);
    for bytes in samples.into_iter().chain((1..=100).map(any)) {
        let image = library::load(&bytes).unwrap();
        let paths = Paths::new(&image);
        let (nesting, leads) = (Nesting::new(&image, &paths), Leads::new(&image).unwrap());
        count_plainly(&image, &paths, &nesting, &leads);
        find_all(&bytes, &image, &paths);
    }
}

/// Containers in each other, each the child of the one before both by its place and by its name.
#[test]
fn a_child_by_place_and_name_is_looked_into_once() {
    let count = 64u32;
    let node = |k: u32| [k - 1, 0, 1, 0, 1, 0, k, u32::from(k + 1 < count), k, u32::from(k + 1 < count)];
    let root = [NONE, NONE, 1, NONE, NONE, 0, 0, 1, 0, 1];
    let nodes: Vec<_> = std::iter::once(root).chain((1..count).map(node)).collect();
    let children: Vec<_> = (1..count).collect();
    let named: Vec<_> = children.iter().map(|child| [0, 1, *child]).collect();
    let (nodes, named) = (nodes.as_flattened(), named.as_flattened());
    let draft = Draft { nodes, children: &children, named, strings: b"a", ..Draft::default() };
    let mut work = vec![0; draft.work_words()];
    let mut output = vec![0; draft.image_length(21, &mut work).unwrap()];
    let bytes = draft.write(21, &mut work, &mut output).unwrap();
    let path = |pieces| vec!["a"; pieces].join(".");
    assert_eq!(lines(bytes, &[&path(63)])[1..], ["0 lead to it", "0 lead from outside to nodes below it"]);
    assert_eq!(asked(bytes, &[&path(64)]), (vec![], Status::Refused));
    assert_eq!(asked(bytes, &[&format!("{}.b", path(62))]), (vec![], Status::Refused));
}
