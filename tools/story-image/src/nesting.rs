//! Which nodes lie in which containers.

use crate::paths::Paths;
use inspect::library::{Image, Reader};
use std::ops::Range;

/// The tree of an image, with what it takes to ask of any two nodes whether one lies in the other.
pub struct Nesting {
    /// All nodes, each in front of those below it, which follow it at once.
    order: Vec<u32>,
    /// Where a node stands in that order, together with those below it.
    spans: Vec<Range<u32>>,
    parents: Vec<u32>,
    /// A node further up, so chosen that a way up takes few steps, however long it is.
    leaps: Vec<u32>,
}

impl Nesting {
    pub fn new(image: &Image<'_>, paths: &Paths<'_>) -> Nesting {
        let order = walk(image);
        let parents: Vec<_> = paths.nodes.iter().map(|node| node.parent.unwrap_or(0)).collect();
        let (spans, leaps) = (spans(&order, &parents), leaps(&order, &parents));
        Nesting { order, spans, parents, leaps }
    }

    /// The root's is itself.
    pub fn parent(&self, node: u32) -> u32 {
        self.parents[node as usize]
    }

    /// Whether a node is this one or below it.
    pub fn holds(&self, outer: u32, node: u32) -> bool {
        self.spans[outer as usize].contains(&self.spans[node as usize].start)
    }

    /// The nearest above `inner`, or itself, that holds a node.
    pub fn nearest(&self, inner: u32, node: u32) -> u32 {
        let mut at = inner;
        while !self.holds(at, node) {
            let leap = self.leaps[at as usize];
            at = if self.holds(leap, node) { self.parent(at) } else { leap };
        }
        at
    }

    /// Adds to each node's number those of all below it.
    pub fn add_up(&self, numbers: &mut [i64]) {
        for node in self.order[1..].iter().rev() {
            numbers[self.parent(*node) as usize] += numbers[*node as usize];
        }
    }
}

/// All nodes, from the root down. One that is a child twice, by place and by name, is met once.
fn walk(image: &Image<'_>) -> Vec<u32> {
    let (mut order, mut pending) = (vec![], vec![0]);
    let mut seen = vec![false; image.node_count() as usize];
    while let Some(node) = pending.pop() {
        if !std::mem::replace(&mut seen[node as usize], true) {
            order.push(node);
            pending.extend(image.children(node));
            pending.extend(image.named_children(node).into_iter().map(|(_, child)| child));
        }
    }
    order
}

fn spans(order: &[u32], parents: &[u32]) -> Vec<Range<u32>> {
    let mut spans = vec![0..0; order.len()];
    for (place, node) in (0..).zip(order) {
        spans[*node as usize] = place..place + 1;
    }
    for node in order[1..].iter().rev() {
        let (end, parent) = (spans[*node as usize].end, &mut spans[parents[*node as usize] as usize]);
        parent.end = parent.end.max(end);
    }
    spans
}

/// From a node to its parent, or, where the two leaps from there are of one length, as far as both: a way up then takes
/// steps by the logarithm of its length.
fn leaps(order: &[u32], parents: &[u32]) -> Vec<u32> {
    let (mut leaps, mut depths) = (vec![0; order.len()], vec![0; order.len()]);
    for node in &order[1..] {
        let parent = parents[*node as usize];
        let first = leaps[parent as usize];
        let second = leaps[first as usize];
        let depth = |node: u32| depths[node as usize];
        let alike = depth(parent) - depth(first) == depth(first) - depth(second);
        leaps[*node as usize] = if alike { second } else { parent };
        depths[*node as usize] = depth(parent) + 1;
    }
    leaps
}
