//! Depths of many nodes.

use inspect::library::Reader;

/// The library counts a node's depth step by step. So many steps are spent on an image; of its other nodes the depth is
/// one more than the parent's, so that an image of many deep nodes is shown as soon as another.
const STEPS: u64 = 100_000_000;

pub struct Depths {
    known: Vec<Option<u32>>,
    left: u64,
}

impl Depths {
    pub fn new(image: &impl Reader) -> Depths {
        Depths::with_steps(image, STEPS)
    }

    pub fn with_steps(image: &impl Reader, left: u64) -> Depths {
        let mut known = vec![None; image.node_count() as usize];
        known[0] = image.depth(0);
        Depths { known, left }
    }

    /// The number of parent steps from a node to node 0.
    pub fn of(&mut self, image: &impl Reader, node: u32) -> Option<u32> {
        if self.left == 0 {
            return self.by_parent(image, node);
        }
        let depth = image.depth(node)?;
        self.left = self.left.saturating_sub(depth.into());
        self.known[node as usize] = Some(depth);
        Some(depth)
    }

    /// Up to the next node whose depth is known, and down again.
    fn by_parent(&mut self, image: &impl Reader, node: u32) -> Option<u32> {
        let (mut way, mut top) = (vec![], node);
        let mut depth = loop {
            match self.known[top as usize] {
                Some(depth) => break depth,
                None => way.push(top),
            }
            top = image.node(top)?.parent?;
        };
        for node in way.into_iter().rev() {
            depth += 1;
            self.known[node as usize] = Some(depth);
        }
        Some(depth)
    }
}
