//! Depth, which the published Rust does not tell: counted over the parents of its views on an image that the published
//! Rust accepts, over the parent words on other bytes and under other views.

use crate::bench::lapped_chain;
use crate::library::{Library, Queries, View, load_words};
use crate::parts::{ENTRY_SIZES, NONE, word_at};
use crate::tally::Tally;
use reference::{Image, NodeView};

/// Where the parents of a node lead.
#[derive(Clone, Copy, Debug, PartialEq)]
pub enum Way {
    /// To node 0, in so many steps.
    Root(u32),
    Outside,
    Circle,
}

impl Way {
    pub fn depth(self) -> Option<u32> {
        if let Way::Root(steps) = self { Some(steps) } else { None }
    }
}

/// How many nodes there are under a view; none if they do not lie in the bytes.
fn node_count(bytes: &[u8], view: &View) -> u32 {
    let end = view[1] as usize + view[2] as usize * ENTRY_SIZES[0];
    if end <= bytes.len() { view[2] } else { 0 }
}

/// Steps along the parent words of any bytes, at no more nodes than there are.
pub fn by_words(bytes: &[u8], view: &View, node: u32) -> Way {
    let count = node_count(bytes, view);
    let mut at = node;
    for steps in 0..count {
        if at == 0 {
            return Way::Root(steps);
        }
        if at >= count {
            return Way::Outside;
        }
        at = word_at(bytes, view[1] as usize + at as usize * ENTRY_SIZES[0]);
    }
    if node < count { Way::Circle } else { Way::Outside }
}

/// The published views of all nodes.
pub fn views(image: &Image<'_>) -> Vec<Option<NodeView>> {
    (0..image.node_count() as u32).map(|node| image.node_view(node)).collect()
}

/// Of each node, the steps along the parents of its view and the views that follow; each node is stepped from once.
pub fn by_views(views: &[Option<NodeView>]) -> Vec<Option<u32>> {
    let mut depths = vec![None; views.len()];
    let mut known = vec![false; views.len()];
    if let Some(Some(_)) = views.first() {
        (depths[0], known[0]) = (Some(0), true);
    }
    for start in 0..views.len() {
        let (mut way, mut at) = (vec![], Some(start));
        while let Some(node) = at.filter(|node| known.get(*node) == Some(&false)) {
            // nothing, until the way is at its end: so it ends in a circle too
            known[node] = true;
            way.push(node);
            at = views[node].as_ref().and_then(|view| view.parent).map(|parent| parent as usize);
        }
        let mut depth = at.and_then(|node| *depths.get(node)?);
        for node in way.into_iter().rev() {
            depth = depth.map(|depth| depth + 1);
            depths[node] = depth;
        }
    }
    depths
}

/// Of bytes that were refused, or under a view that is not theirs: all nodes, and numbers outside.
pub fn strange(name: &'static str, bytes: &[u8], view: &View, ours: Option<&dyn Queries>, tally: &mut Tally) {
    let count = node_count(bytes, view);
    let (mut circles, mut outside) = (0, 0);
    for node in (0..count).chain([count, count + 1, NONE]) {
        let way = by_words(bytes, view, node);
        circles += u64::from(way == Way::Circle);
        outside += u64::from(way == Way::Outside && node < count);
        let theirs = way.depth();
        tally.query(name, &theirs);
        if let Some(library) = ours {
            let ours = library.depth(bytes, view, node);
            tally.check(ours == theirs, || format!("{name}: node {node}, {way:?}, ours {ours:?}"), bytes);
        }
    }
    let parent_of_root = count > 0 && word_at(bytes, view[1] as usize) != NONE;
    tally.met("not accepted, with parents in a circle", u64::from(circles > 0));
    tally.met("not accepted, nodes that come to a circle", circles);
    tally.met("not accepted, nodes that come outside", outside);
    tally.met("not accepted, a parent of node 0", u64::from(parent_of_root));
    tally.met("not accepted, nodes not in the bytes", u64::from(count < view[2]));
}

const CHAIN: u32 = 5_000;

/// A chain of containers, each the child of the one before it: node k has depth k.
pub fn chain(ours: Option<&dyn Library>, tally: &mut Tally) {
    let bytes = lapped_chain(CHAIN).bytes();
    let image = reference::load(&bytes).unwrap_or_else(|reason| panic!("{reason}"));
    let theirs = by_views(&views(&image));
    let ours = ours.and_then(|ours| {
        let (number, view) = ours.load(&bytes, &mut vec![0; load_words(&bytes)]);
        tally.check(number == 0, || format!("chain: {number}"), &bytes);
        ours.queries().map(|queries| (queries, view))
    });
    for node in (0..CHAIN).chain([CHAIN, CHAIN + 1, NONE]) {
        let depth = (node < CHAIN).then_some(node);
        assert_eq!(theirs.get(node as usize).copied().flatten(), depth);
        tally.query("depth, chain", &depth);
        if let Some((library, view)) = &ours {
            let ours = library.depth(&bytes, view, node);
            tally.check(ours == depth, || format!("chain: node {node}, ours {ours:?}"), &bytes);
        }
    }
}
