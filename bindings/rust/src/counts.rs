//! How many targets name each node of an image or a draft, and changing one target of a draft with its counts.

use crate::draft::Draft;
use crate::ffi;
use crate::refusal::Refusal;
use crate::targets::OpenDraft;
use crate::{NODE_WORDS, NONE};

/// A word for each node of an image or a draft: how many choices, diverts, divert-target values and references name it.
/// [`Image::target_counts`](crate::Image::target_counts) and [`Draft::count_targets`] make it, and it borrows the words
/// as long as it is used.
#[derive(Clone, Copy, Debug, PartialEq, Eq)]
pub struct TargetCounts<'w> {
    words: &'w [u32],
}

impl<'w> TargetCounts<'w> {
    pub(crate) fn new(words: &'w [u32]) -> Self {
        TargetCounts { words }
    }

    /// How many name the node; nothing for a node outside.
    pub fn of(&self, node: u32) -> Option<u32> {
        self.words.get(node as usize).copied()
    }

    /// The words, exactly one for each node.
    pub fn words(&self) -> &'w [u32] {
        self.words
    }

    /// The sum of the words: how many targets are present.
    pub fn total(&self) -> u64 {
        self.words.iter().map(|&word| u64::from(word)).sum()
    }
}

impl Draft<'_> {
    /// Of each node, how many choices, diverts, divert-target values and references name it: one word a node, in the
    /// lent words; those past the nodes stay as they were. Refused with 19 for a broken draft, as writing is, then with
    /// 27 ([`Refusal::BAD_SUMMARY`]) for fewer words than nodes; no word is written then. The test of 19 goes over the
    /// whole draft once. To change targets afterwards: [`OpenDraft::count_targets`].
    ///
    /// ```
    /// use story_image::{Draft, NONE, Refusal};
    ///
    /// // the root, and a divert to it
    /// let nodes = [[NONE, NONE, 1, NONE, NONE, 0, 0, 1, 0, 0], [0, 0, 4, NONE, NONE, 0, NONE, NONE, 0, 0]];
    /// let draft = Draft { nodes: nodes.as_flattened(), children: &[1], ..Draft::default() };
    /// let mut words = [0; 2];
    /// assert_eq!(draft.count_targets(&mut words)?.words(), [1, 0]);
    /// assert_eq!(draft.count_targets(&mut words[..1]), Err(Refusal::BAD_SUMMARY));
    /// # Ok::<(), Refusal>(())
    /// ```
    pub fn count_targets<'w>(&self, words: &'w mut [u32]) -> Result<TargetCounts<'w>, Refusal> {
        let (nodes, counts) = (self.nodes.as_ptr(), words.as_mut_ptr());
        // SAFETY: the slices live through the call, and the words, which alone are written, are borrowed alone.
        let number = unsafe { call_draft!(ffi::story_image_count_draft_targets, nodes, self, counts, words.len()) };
        Refusal::of(number).map(|()| TargetCounts::new(&words[..self.nodes.len() / NODE_WORDS]))
    }
}

impl<'a> OpenDraft<'a> {
    /// Counts as [`Draft::count_targets`] does, refused with 19 and 27 as that is, and lends the node words together
    /// with their counts: [`CountedDraft::set_target`] changes both.
    pub fn count_targets<'d>(&'d mut self, words: &'d mut [u32]) -> Result<CountedDraft<'d, 'a>, Refusal> {
        self.draft().count_targets(words)?;
        CountedDraft::resume(self, words)
    }
}

/// A draft and the counts of its targets. Both are borrowed as long as it is used, so that only
/// [`set_target`](CountedDraft::set_target) changes either, and the counts of one draft are not taken for another's.
/// [`OpenDraft::count_targets`] makes it.
///
/// **Each change takes the time of the whole draft**, which is tested once for 19, however little is changed. For many
/// changes set the target words in [`OpenDraft::nodes`] (or [`DraftBuilder::set_target`](crate::DraftBuilder::set_target)
/// before) and count once: the counting tests each of them.
///
/// ```
/// use story_image::{DraftBuilder, NodeKind, OpenDraft, Refusal, Room};
///
/// # let room = Room {
/// #     nodes: &mut [0; 40],
/// #     children: &mut [0; 1],
/// #     named: &mut [0; 6],
/// #     strings: &mut [0; 100],
/// #     ..Room::default()
/// # };
/// let mut draft = DraftBuilder::new(room)?;
/// let choice = draft.child(DraftBuilder::ROOT, NodeKind::ChoicePoint { path: None, target: 0, flags: 0 })?;
/// let [day, night] = ["day", "night"].map(|name| draft.named_container(DraftBuilder::ROOT, name).unwrap());
/// draft.set_target(choice, day)?;
/// let mut draft: OpenDraft = draft.finish_open();
///
/// // one test of the draft, and a word for each of its four nodes
/// let mut words = [0; 4];
/// let mut counted = draft.count_targets(&mut words)?;
/// assert_eq!(counted.counts().of(day), Some(1));
///
/// // one test of the draft for each change
/// counted.set_target(choice, Some(night))?;
/// assert_eq!((counted.counts().of(day), counted.counts().of(night)), (Some(0), Some(1)));
/// // a choice needs a container
/// assert_eq!(counted.set_target(choice, Some(choice)), Err(Refusal::NOT_FOUND));
/// assert_eq!(counted.set_target(choice, None), Err(Refusal::NOT_FOUND));
/// assert_eq!(counted.counts().total(), 1);
///
/// // many changes: the words are set in the nodes, and one test is all
/// let target = 10 * choice as usize + 5;
/// for node in [day, night, 0, day] {
///     draft.nodes[target] = node;
/// }
/// assert_eq!(draft.count_targets(&mut words)?.counts().of(day), Some(1));
/// # Ok::<(), Box<dyn std::error::Error>>(())
/// ```
///
/// Node words and counts stay as they are while it is used:
///
/// ```compile_fail,E0506
/// # use story_image::{NONE, OpenDraft};
/// # let mut root = [NONE, NONE, 1, NONE, NONE, 0, 0, 0, 0, 0];
/// let mut draft = OpenDraft { nodes: &mut root, ..OpenDraft::default() };
/// let mut words = [0];
/// let counted = draft.count_targets(&mut words)?;
/// draft.nodes[5] = 1; // refused by the compiler
/// assert_eq!(counted.counts().total(), 0);
/// # Ok::<(), story_image::Refusal>(())
/// ```
#[derive(Debug)]
pub struct CountedDraft<'d, 'a> {
    draft: &'d mut OpenDraft<'a>,
    /// Exactly one for each node.
    words: &'d mut [u32],
}

impl<'d, 'a> CountedDraft<'d, 'a> {
    /// The draft with counts that were kept from before. They are trusted and not counted again: they are right if they
    /// are what a [`CountedDraft`] of this draft had, and no target was changed since. With others nothing worse happens
    /// than that they stay wrong, and that a change may be refused with 27. Words past the nodes are not looked at; 27
    /// ([`Refusal::BAD_SUMMARY`]) for fewer words than nodes. The draft is not tested here, but by each change.
    ///
    /// ```
    /// use story_image::{CountedDraft, NONE, OpenDraft, Refusal};
    ///
    /// let mut nodes = [[NONE, NONE, 1, NONE, NONE, 0, 0, 1, 0, 0], [0, 0, 4, NONE, NONE, 0, NONE, NONE, 0, 0]];
    /// let mut draft = OpenDraft { nodes: nodes.as_flattened_mut(), children: &[1], ..OpenDraft::default() };
    /// let mut words = [0; 2];
    /// draft.count_targets(&mut words)?;
    /// // later
    /// let mut counted = CountedDraft::resume(&mut draft, &mut words)?;
    /// counted.set_target(1, None)?;
    /// assert_eq!(words, [0, 0]);
    /// assert_eq!(CountedDraft::resume(&mut draft, &mut words[..1]).unwrap_err(), Refusal::BAD_SUMMARY);
    /// # Ok::<(), Refusal>(())
    /// ```
    pub fn resume(draft: &'d mut OpenDraft<'a>, words: &'d mut [u32]) -> Result<Self, Refusal> {
        let words = words.get_mut(..draft.nodes.len() / NODE_WORDS).ok_or(Refusal::BAD_SUMMARY)?;
        Ok(CountedDraft { draft, words })
    }

    /// Sets the target of a node, or clears it: the word of the node that was the target goes down by 1, that of the new
    /// one up by 1, and no other word of nodes or counts changes; a path text stays. To the target that is there no step
    /// is taken. `Some(NONE)` is `None`. The call goes over the whole draft once, whatever is set.
    ///
    /// Refused, and then all words stay, with 19 for a broken draft; 18 ([`Refusal::NOT_FOUND`]) for a node outside, one
    /// of a kind without target, or a target that it may not have: a choice has a container, a divert any node or none,
    /// a divert-target value any node, a reference a container or none; last with 27 ([`Refusal::BAD_SUMMARY`]) where
    /// the old node's word is 0 or the new one's [`u32::MAX`]. Counts that are right are right afterwards, and 27 is
    /// given for them only in a draft of more than 4294967295 nodes.
    pub fn set_target(&mut self, node: u32, target: Option<u32>) -> Result<(), Refusal> {
        let (nodes, counts) = (self.draft.nodes.as_mut_ptr(), self.words.as_mut_ptr());
        let (length, target) = (self.words.len(), target.unwrap_or(NONE));
        // SAFETY: the slices are ours, the mutable ones overlap nothing, and all live through the call.
        Refusal::of(unsafe {
            call_draft!(ffi::story_image_set_target, nodes, self.draft, counts, length, node, target)
        })
    }

    /// The counts as they stand.
    pub fn counts(&self) -> TargetCounts<'_> {
        TargetCounts::new(self.words)
    }

    /// The draft as it stands.
    pub fn draft(&self) -> Draft<'_> {
        self.draft.draft()
    }
}
