//! Images of 200,000 nodes are shown in seconds: broad ones, and ones whose nodes lie deep.

use super::{CONTAINER, divert, shown, written};
use crate::each::Show;
use crate::{graph, json, targets, tree};
use std::time::{Duration, Instant};
use story_image::{DraftBuilder, NodeKind};

const NODES: usize = 200_000;

/// Named containers of a hundred nodes each, every tenth a choice between them.
fn broad() -> Vec<u8> {
    written(NODES, 40 * NODES, |draft| {
        let knots: Vec<_> = (0..NODES / 100).map(|k| draft.named_container(0, &format!("knot{k}")).unwrap()).collect();
        for (k, knot) in knots.iter().enumerate() {
            for j in 0..98 {
                let target = knots[(7 * k + j) % knots.len()];
                let kind = match j % 10 {
                    9 => NodeKind::ChoicePoint { path: None, target, flags: 0 },
                    _ => NodeKind::String("Good evening."),
                };
                draft.child(*knot, kind).unwrap();
            }
        }
    })
}

/// Containers in each other, with all other nodes in the last.
fn deep() -> Vec<u8> {
    let containers = 3_000;
    written(NODES, 100, |draft| {
        let mut last = DraftBuilder::ROOT;
        for _ in 1..containers {
            last = draft.child(last, CONTAINER).unwrap();
        }
        let target = last;
        for k in containers..NODES {
            let choice = NodeKind::ChoicePoint { path: None, target, flags: 4 };
            draft.child(last, if k % 2 == 0 { NodeKind::Glue } else { choice }).unwrap();
        }
    })
}

/// Two chains of containers in each other; the last of each has half of the other nodes, which lead to the last of the
/// other.
fn crossed() -> Vec<u8> {
    let containers = 2_000;
    written(NODES, 100, |draft| {
        let mut chain = || (0..containers).fold(DraftBuilder::ROOT, |last, _| draft.child(last, CONTAINER).unwrap());
        let lasts = [chain(), chain()];
        for k in 2 * containers + 1..NODES {
            draft.child(lasts[k % 2], divert(lasts[(k + 1) % 2], false)).unwrap();
        }
    })
}

/// Shows an image and says how long that took.
fn timed(name: &str, show: Show, bytes: &[u8], words: &[&str]) -> Duration {
    let began = Instant::now();
    let text = shown(show, bytes, words);
    let took = began.elapsed();
    println!("{name} {words:?}: {} bytes, {:.2} s", text.len(), took.as_secs_f64());
    took
}

#[test]
fn large_images_take_seconds() {
    for (name, bytes) in [("broad", broad()), ("deep", deep())] {
        for (show, command) in [(tree::show as _, "tree"), (json::show as _, "json"), (graph::show as _, "graph")] {
            for words in [&[][..], &["--all"]] {
                let took = timed(&format!("{name}, {command}"), show, &bytes, words);
                assert!(took < Duration::from_secs(20), "{name}, {command}");
            }
        }
    }
}

/// All containers, and the node to which most lead.
#[test]
fn targets_of_large_images_take_less_than_a_second() {
    for (name, bytes, most) in [("broad", broad(), "1"), ("deep", deep(), "2999"), ("crossed", crossed(), "2000")] {
        for words in [&["-"][..], &["-", most], &["-", "0"], &["-", "0.0.0.0"]] {
            let took = timed(&format!("{name}, targets"), targets::show, &bytes, words);
            assert!(took < Duration::from_secs(1), "{name} {words:?}");
        }
    }
}
