//! What leads where: every node that names another, and how often each is named.

use crate::nesting::Nesting;
use inspect::library::{Image, Reader};

/// A choice, a divert, a divert-target value or a read count, and the node that it names.
#[derive(Clone, Copy, Debug, PartialEq, Eq)]
pub struct Lead {
    pub node: u32,
    pub target: u32,
}

pub struct Leads {
    /// By the number of the node that names.
    pub all: Vec<Lead>,
    /// How many name each node, as the library counts them.
    pub counts: Vec<u32>,
}

impl Leads {
    /// Nothing if the library counts others than are listed here, which would be a fault of this program.
    pub fn new(image: &Image<'_>) -> Option<Leads> {
        let lead = |node| image.target(node).map(|(_, target)| Lead { node, target });
        Leads::counted((0..image.node_count()).filter_map(lead).collect(), image.target_counts()?)
    }

    /// The counts have to be those of the list.
    pub fn counted(all: Vec<Lead>, counts: Vec<u32>) -> Option<Leads> {
        let mut listed = vec![0; counts.len()];
        for lead in &all {
            *listed.get_mut(lead.target as usize)? += 1;
        }
        (listed == counts).then_some(Leads { all, counts })
    }

    /// Those that name a node.
    pub fn to(&self, node: u32) -> impl Iterator<Item = &Lead> {
        self.all.iter().filter(move |lead| lead.target == node)
    }

    /// Those outside a container that name nodes below it.
    pub fn below(&self, container: u32, nesting: &Nesting) -> impl Iterator<Item = &Lead> {
        let below = move |node| node != container && nesting.holds(container, node);
        self.all.iter().filter(move |lead| below(lead.target) && !nesting.holds(container, lead.node))
    }

    /// How many these are, of every container. One that leads to a node counts for each container around that node, up
    /// to the first that holds both: 1 at the node's parent and -1 at that first, then the sums of all below.
    pub fn counts_below(&self, nesting: &Nesting) -> Vec<i64> {
        let mut counts = vec![0; self.counts.len()];
        for Lead { node, target } in &self.all {
            let parent = nesting.parent(*target);
            counts[parent as usize] += 1;
            counts[nesting.nearest(parent, *node) as usize] -= 1;
        }
        nesting.add_up(&mut counts);
        counts
    }
}
