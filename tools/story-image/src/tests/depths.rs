//! The depth that the tree and the JSON show of a node is its nesting, and the number of parent steps to node 0.

use super::{sample, written};
use crate::depths::Depths;
use crate::{json, tree};
use inspect::library::{self, Reader};
use story_image::{DraftBuilder, NodeKind};

/// Containers, each in the one before: node k has depth k. Every other one is only a named child.
fn chain(containers: usize) -> Vec<u8> {
    written(containers, 2 * containers, |draft| {
        let mut last = DraftBuilder::ROOT;
        for k in 1..containers {
            last = if k % 2 == 0 {
                draft.named_container(last, "a").unwrap()
            } else {
                draft.child(last, NodeKind::Container { name: None, count_flags: 0 }).unwrap()
            };
        }
    })
}

/// Depth, spaces in front and number of each node of the tree.
fn shown(bytes: &[u8]) -> Vec<(usize, usize, usize)> {
    let image = library::load(bytes).expect("an accepted image");
    let mut out = vec![];
    tree::tree(&image, &mut out).unwrap();
    let text = String::from_utf8(out).unwrap();
    let (head, lines) = text.split_once('\n').unwrap();
    assert_eq!(head, "depth  node");
    let node = |line: &str| {
        let (depth, rest) = line.split_at(5);
        let rest = rest.strip_prefix("  ").unwrap();
        let (line, number) = (rest.trim_start(), |word: &str| word.parse().unwrap());
        (number(depth.trim_start()), rest.len() - line.len(), number(line.split(' ').next().unwrap()))
    };
    lines.lines().filter(|line| !line.starts_with("list ")).map(node).collect()
}

/// Parent and depth of each node of the JSON, by number.
fn members(bytes: &[u8]) -> Vec<(Option<usize>, usize)> {
    let text = super::shown(json::show, bytes, &[]);
    let member = |node: &str, name: &str| {
        let (_, value) = node.split_once(&format!("\"{name}\":")).unwrap();
        value[..value.find(',').unwrap()].parse().ok()
    };
    // parent and depth stand in front of all texts
    text.split("{\"node\":").skip(1).map(|node| (member(node, "parent"), member(node, "depth").unwrap())).collect()
}

#[test]
fn depths_are_nesting_and_parent_steps() {
    let samples = ["smallest.image", "step.image", "guide.image", "largest.image"].map(sample);
    for bytes in samples.into_iter().chain([chain(60)]) {
        let (lines, nodes) = (shown(&bytes), members(&bytes));
        let mut met = vec![false; nodes.len()];
        for (depth, spaces, node) in lines {
            assert_eq!((depth, spaces), (nodes[node].1, 2 * depth.min(40)), "node {node}");
            met[node] = true;
        }
        assert!(met.iter().all(|met| *met));
        for (node, (parent, depth)) in nodes.iter().enumerate() {
            assert_eq!(*depth, parent.map_or(0, |parent| nodes[parent].1 + 1), "node {node}");
        }
    }
}

/// Deeper than lines are moved in.
#[test]
fn a_chain() {
    let depths: Vec<_> = members(&chain(60)).iter().map(|(_, depth)| *depth).collect();
    assert_eq!(depths, (0..60).collect::<Vec<_>>());
    assert_eq!(shown(&chain(60)).last(), Some(&(59, 80, 59)));
}

/// However many steps the library is asked to take, and in whatever order.
#[test]
fn depths_by_parents_are_the_same() {
    for bytes in [sample("guide.image"), chain(60)] {
        let image = library::load(&bytes).unwrap();
        for steps in [0, 1, 7, 100] {
            let mut depths = Depths::with_steps(&image, steps);
            for node in (0..image.node_count()).rev() {
                assert_eq!(depths.of(&image, node), image.depth(node), "node {node}, {steps} steps");
            }
        }
    }
}
