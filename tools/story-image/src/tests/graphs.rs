//! Graphs of small images.

use super::{CONTAINER, add, divert, sample, written};
use crate::graph;
use inspect::library::{self, Reader};
use story_image::{CommandType, DraftBuilder, NodeKind, PushPopType};

fn graph(bytes: &[u8], all: bool) -> Vec<String> {
    let image = library::load(bytes).expect("an accepted image");
    let mut out = vec![];
    graph::graph(&image, "-", all, &mut out).unwrap();
    let text = String::from_utf8(out).unwrap();
    text.lines().filter(|line| line.starts_with("  n") && !line.starts_with("  node")).map(str::to_owned).collect()
}

fn back() -> NodeKind<'static> {
    NodeKind::Divert {
        path: None,
        target: None,
        variable_name: Some("$r"),
        external_args: 0,
        conditional: false,
        external: false,
        pushes_to_stack: false,
        stack_push_type: PushPopType::Tunnel,
    }
}

/// A choice behind what is evaluated for it; arrows are bold, and the label is what stands beside.
fn choice_label(flags: i32, path: Option<&str>, kinds: &[NodeKind<'_>]) -> Option<String> {
    let bytes = written(60, 1000, |draft| {
        let end = draft.named_container(DraftBuilder::ROOT, "end").unwrap();
        let start = draft.named_container(DraftBuilder::ROOT, "start").unwrap();
        add(draft, start, &[NodeKind::String("Hello"), back()]);
        add(draft, DraftBuilder::ROOT, kinds);
        draft.child(DraftBuilder::ROOT, NodeKind::ChoicePoint { path, target: end, flags }).unwrap();
    });
    let lines = graph(&bytes, false);
    let arrow = lines.iter().find(|line| line.contains("style=bold")).expect("an arrow");
    let (_, label) = arrow.split_once("label=\"")?;
    Some(label.strip_suffix("\"];").unwrap().to_owned())
}

#[test]
fn the_text_of_a_choice() {
    use CommandType::{BeginString, EndString, EvalEnd, EvalOutput, EvalStart};
    let [ev, end, out, begin, close] =
        [EvalStart, EvalEnd, EvalOutput, BeginString, EndString].map(NodeKind::ControlCommand);
    let text = NodeKind::String;
    let label = |flags, kinds: &[NodeKind<'_>]| choice_label(flags, None, kinds);
    let some = |text: &str| Some(text.to_owned());
    assert_eq!(label(4, &[ev, begin, text("Yes"), close, end]), some("Yes"));
    assert_eq!(label(20, &[ev, begin, text("Y\""), text("es"), close, end]), some("Y\\\"es"));
    // what is said again, then what is not, then a condition with a string of its own
    let both = [ev, begin, text("a "), close, begin, text("b"), close, begin, text("c"), close, end];
    assert_eq!(label(7, &both), some("a b"));
    assert_eq!(label(2, &both), some("a"));
    // what is said again is in a container: node 2 of the draft; the mark behind the divert is one
    assert_eq!(label(2, &[ev, begin, divert(2, false), CONTAINER, close, end]), some("Hello"));
    // no text, or one that is reckoned out, or not in front of this choice
    assert_eq!(label(0, &[ev, begin, text("a"), close, end]), None);
    assert_eq!(label(4, &[ev, begin, text("a"), ev, out, end, close, end]), None);
    assert_eq!(label(4, &[ev, begin, text("a"), close, end, text("b")]), None);
    assert_eq!(label(4, &[begin, text("a"), close, end]), None);
    assert_eq!(label(4, &[end, begin, text("a"), close, ev]), None);
    assert_eq!(label(4, &[]), None);
    assert_eq!(label(4, &[ev, begin, text("a"), close, end, begin, NodeKind::Glue, end]), None);
    // then its path
    assert_eq!(choice_label(4, Some("end"), &[text("a")]), some("end"));
}

#[test]
fn nameless_containers_are_folded() {
    let bytes = written(20, 100, |draft| {
        let a = draft.named_container(DraftBuilder::ROOT, "a").unwrap();
        let inner = draft.child(a, CONTAINER).unwrap();
        let deep = draft.child(inner, CONTAINER).unwrap();
        add(draft, deep, &[divert(DraftBuilder::ROOT, true), divert(a, false), divert(a, false)]);
        add(draft, DraftBuilder::ROOT, &[divert(inner, false), NodeKind::DivertTarget { path: "a.0", target: deep }]);
        let count = NodeKind::VariableReference { name: "", count_path: None, count_target: Some(a) };
        add(draft, DraftBuilder::ROOT, &[count]);
    });
    // numbered in reading order: the root's three, then a (4) with its containers
    let folded = [
        "  n0 [label=\"(root)\"];",
        "  n4 [label=\"a\"];",
        "  n0 -> n4 [style=solid];",
        "  n0 -> n4 [style=dashed];",
        "  n0 -> n4 [style=dotted];",
        "  n4 -> n0 [style=solid, label=\"tunnel\"];",
        "  n4 -> n4 [style=solid, label=\"\u{d7}2\"];",
    ];
    assert_eq!(graph(&bytes, false), folded);
    let all = [
        "  n0 [label=\"(root)\"];",
        "  n4 [label=\"a\"];",
        "  n5 [label=\"a.0\"];",
        "  n6 [label=\"a.0.0\"];",
        "  n0 -> n5 [style=solid];",
        "  n0 -> n6 [style=dashed];",
        "  n0 -> n4 [style=dotted];",
        "  n6 -> n0 [style=solid, label=\"tunnel\"];",
        "  n6 -> n4 [style=solid, label=\"\u{d7}2\"];",
    ];
    assert_eq!(graph(&bytes, true), all);
}

#[test]
fn the_end_of_a_long_path_is_shown() {
    let name = "n".repeat(30);
    let bytes = written(20, 1000, |draft| {
        let mut last = DraftBuilder::ROOT;
        for _ in 0..5 {
            last = draft.named_container(last, &name).unwrap();
        }
    });
    let label = |line: &str| line.split('"').nth(1).unwrap().to_owned();
    let labels: Vec<_> = graph(&bytes, false).iter().map(|line| label(line)).collect();
    assert_eq!(labels[2], format!("{name}.{name}"));
    assert_eq!(labels[5], format!("\u{2026}.{name}.{name}.{name}"));
}

/// Each present target has an arrow, and each arrow ends at boxes.
#[test]
fn every_target_has_its_arrow() {
    for name in ["smallest.image", "step.image", "guide.image", "largest.image"] {
        let bytes = sample(name);
        let image = library::load(&bytes).unwrap();
        let targets = (0..image.node_count()).filter(|node| image.target(*node).is_some()).count();
        for all in [false, true] {
            let lines = graph(&bytes, all);
            let (arrows, boxes): (Vec<_>, Vec<_>) = lines.iter().partition(|line| line.contains(" -> "));
            let times = |line: &&String| {
                line.rsplit_once('\u{d7}').map_or(1, |(_, n)| n.trim_end_matches("\"];").parse().unwrap())
            };
            assert_eq!(arrows.iter().map(times).sum::<usize>(), targets, "{name}");
            for arrow in arrows {
                let ends: Vec<_> = arrow.split_whitespace().take(3).collect();
                for end in [ends[0], ends[2]] {
                    assert!(boxes.iter().any(|line| line.starts_with(&format!("  {end} "))), "{name}: {arrow}");
                }
            }
        }
    }
}
