//! Where the nodes of an image stand, and the paths of its containers.

use inspect::library::{Image, Kind, Reader};

/// What is shown for the path of the root, which is empty.
pub const ROOT: &str = "(root)";

/// Characters of a path or a text; of a path the last ones.
pub const MOST: usize = 80;

/// Where a node stands.
pub struct Standing<'a> {
    pub parent: Option<u32>,
    place: Option<u32>,
    pub container: bool,
    /// Of a container that has one.
    pub name: Option<&'a str>,
}

/// The nodes of an image, by number.
pub struct Paths<'a> {
    pub nodes: Vec<Standing<'a>>,
}

impl<'a> Paths<'a> {
    pub fn new(image: &Image<'a>) -> Self {
        Paths { nodes: (0..image.node_count()).map(|node| standing(image, node)).collect() }
    }

    pub fn parent(&self, node: u32) -> Option<u32> {
        self.nodes[node as usize].parent
    }

    /// The path of a container, or the end of a long one; nothing for the root.
    pub fn path(&self, container: u32) -> Option<String> {
        let (mut pieces, mut length, mut at) = (vec![], 0, container);
        while let Some(parent) = self.parent(at) {
            let piece = self.piece(at);
            length += piece.chars().count() + 1;
            pieces.push(piece);
            at = parent;
            if length > MOST && at != 0 {
                pieces.push("\u{2026}".to_owned());
                break;
            }
        }
        pieces.reverse();
        (!pieces.is_empty()).then(|| pieces.join("."))
    }

    /// What a container adds to the path of the one around it: its name, else its place.
    fn piece(&self, container: u32) -> String {
        let Standing { place, name, .. } = &self.nodes[container as usize];
        let place = place.map(|place| place.to_string()).unwrap_or_default();
        name.map(str::to_owned).unwrap_or(place)
    }

    /// The container with a path, which in an accepted image no other has: down from the root, into each container with
    /// whose path the text begins, once, though it may be a child by place and by name. Names may have dots, so there can
    /// be several.
    pub fn find(&self, image: &Image<'_>, path: &str) -> Option<u32> {
        let (mut pending, mut seen) = (vec![(0, path)], vec![false; self.nodes.len()]);
        while let Some((container, left)) = pending.pop() {
            if left.is_empty() {
                return Some(container);
            }
            if std::mem::replace(&mut seen[container as usize], true) {
                continue;
            }
            let Some(left) = (if container == 0 { Some(left) } else { left.strip_prefix('.') }) else { continue };
            let named = image.named_children(container).into_iter().map(|(_, child)| child);
            let below = image.children(container).into_iter().chain(named);
            let containers = below.filter(|child| self.nodes[*child as usize].container);
            pending.extend(containers.filter_map(|child| Some((child, left.strip_prefix(&*self.piece(child))?))));
        }
        None
    }
}

fn standing<'a>(image: &Image<'a>, node: u32) -> Standing<'a> {
    let Some(view) = image.node(node) else {
        return Standing { parent: None, place: None, container: false, name: None };
    };
    let (name, container) = match view.kind {
        Kind::Container { name, .. } => (name.filter(|name| !name.is_empty()), true),
        _ => (None, false),
    };
    Standing { parent: view.parent, place: view.place, container, name }
}
