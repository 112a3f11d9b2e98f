//! Drafts with paths in place of targets, and finding the targets.

use crate::builder::{BuildError, put};
use crate::draft::Draft;
use crate::ffi;
use crate::names::kind;
use crate::path::{PathText, STEP_WORDS, Step};
use crate::refusal::Refusal;
use crate::{NODE_WORDS, NONE};

/// The paths beside a draft. [`OpenDraft::paths`] makes them of the draft's path texts.
#[derive(Clone, Copy, Debug, Default, PartialEq, Eq)]
pub struct Paths<'a> {
    /// Four words each: node, 0 for an absolute path or 1 for a relative one, first component, number of components.
    /// In any order: following takes time by the components, and if the nodes do not rise, the test of 19 goes over the
    /// entries twice for each 32,768 nodes of the draft.
    pub entries: &'a [u32],
    /// Three words each: 0, 0, 0 for the parent; 1, index, 0; 2, offset and length of a name in `names`.
    pub components: &'a [u32],
    pub names: &'a [u8],
}

/// A [`Draft`] whose targets are still to be found: its node words are lent to be written. Else it is the same.
///
/// ```
/// use story_image::{NONE, OpenDraft, Paths};
///
/// // the root, a choice with the path `night`, and the container of that name
/// let mut nodes = [
///     [NONE, NONE, 1, NONE, NONE, 0, 0, 1, 0, 1],
///     [0, 0, 2, 0, 5, NONE, 0, 0, 0, 0],
///     [0, NONE, 1, 0, 5, 0, 1, 0, 1, 0],
/// ];
/// let mut draft = OpenDraft {
///     nodes: nodes.as_flattened_mut(),
///     children: &[1],
///     named: &[0, 5, 2],
///     strings: b"night",
///     ..OpenDraft::default()
/// };
/// // of node 1, absolute; one component from component 0 on: a name, 5 bytes from byte 0 on
/// let paths = Paths { entries: &[1, 0, 0, 1], components: &[2, 0, 5], names: b"night" };
/// let mut work = vec![0; draft.work_words()];
/// draft.resolve_static_targets(21, &paths, &mut work)?;
/// assert_eq!(nodes[1], [0, 0, 2, NONE, NONE, 2, 0, 0, 0, 0]);
/// # Ok::<(), story_image::Refusal>(())
/// ```
#[derive(Debug, Default)]
pub struct OpenDraft<'a> {
    pub nodes: &'a mut [u32],
    pub children: &'a [u32],
    pub named: &'a [u32],
    pub definitions: &'a [u32],
    pub items: &'a [u32],
    pub payload: &'a [u8],
    pub strings: &'a [u8],
}

/// Words of an entry of a list of paths.
const PATH_WORDS: usize = 4;

/// A number that goes into a word of a list of paths.
fn word(number: usize) -> Result<u32, BuildError> {
    u32::try_from(number).map_err(|_| BuildError::Full("paths"))
}

/// Where the path text of a node lies, if it has one.
fn path_place(node: &[u32; NODE_WORDS]) -> Option<[u32; 2]> {
    let [_, _, tag, f0, f1, f2, f3, ..] = *node;
    let place = match tag {
        kind::CHOICE | kind::DIVERT | kind::DIVERT_TARGET => [f0, f1],
        kind::REFERENCE => [f2, f3],
        _ => return None,
    };
    (place != [NONE; 2]).then_some(place)
}

impl<'a> OpenDraft<'a> {
    /// The draft as it stands.
    pub fn draft(&self) -> Draft<'_> {
        let OpenDraft { children, named, definitions, items, payload, strings, .. } = *self;
        Draft { nodes: self.nodes, children, named, definitions, items, payload, strings }
    }

    /// The same, and its node words are written no more.
    pub fn into_draft(self) -> Draft<'a> {
        let OpenDraft { nodes, children, named, definitions, items, payload, strings } = self;
        Draft { nodes, children, named, definitions, items, payload, strings }
    }

    /// How many work words finding its targets takes, and writing it.
    pub fn work_words(&self) -> usize {
        self.draft().work_words()
    }

    /// How many words [`paths`](OpenDraft::paths) takes: 4 a path, 3 a component.
    pub fn path_words(&self) -> usize {
        let words = |place| PATH_WORDS + STEP_WORDS * self.path_at(place).parts().count();
        self.path_places().fold(0, |sum: usize, (_, place)| sum.saturating_add(words(place)))
    }

    /// The path texts of the draft, each parsed as [`PathText`] says, in the lent words: of choices, diverts,
    /// divert-target values and references, whatever target the node was given. A divert that is external or by
    /// variable is listed too, to be passed over. Nodes rise; names are parts of the draft's strings.
    /// [`BuildError::Full`] for fewer words than [`path_words`](OpenDraft::path_words).
    ///
    /// The library takes components; parsing is done here and is not proved. A text outside the strings, or not UTF-8,
    /// becomes a path without components: the draft is refused with 19 for the text itself.
    pub fn paths<'w>(&self, words: &'w mut [u32]) -> Result<Paths<'w>, BuildError>
    where
        'a: 'w,
    {
        let length = PATH_WORDS * self.path_places().count();
        let (entries, components) = words.split_at_mut_checked(length).ok_or(BuildError::Full("paths"))?;
        let mut used = 0;
        for (entry, (node, place)) in entries.as_chunks_mut::<PATH_WORDS>().0.iter_mut().zip(self.path_places()) {
            let (path, first) = (self.path_at(place), used);
            // where a part begins
            let mut at = place[0] as usize + usize::from(path.relative);
            for part in path.parts() {
                let component = Step::from_part(part).words(at).ok_or(BuildError::Full("paths"))?;
                put(components, &mut used, &component, "paths")?;
                at += part.len() + 1;
            }
            let (start, count) = (word(first / STEP_WORDS)?, word((used - first) / STEP_WORDS)?);
            *entry = [word(node)?, u32::from(path.relative), start, count];
        }
        Ok(Paths { entries, components: &components[..used], names: self.strings })
    }

    /// Finds the targets that the paths give and sets them; gives the draft, which is ready to be written.
    ///
    /// A path is followed if its node is a choice, a divert-target value, a reference, or a divert that is neither
    /// external nor by variable; other nodes are passed over. A relative path starts at the node's parent, and its
    /// first component is skipped: it is the step up to there. Where a node follows a path its target may be any word
    /// before, [`NONE`] say; then it is the node at the end of the path, and the path text is absent, but a
    /// divert-target value keeps its text.
    ///
    /// Refused as writing is with 3, 19 (also for broken entries, a node outside or twice, components outside), 7, 20
    /// and 21; then by the first node that fails: 25, no node is at its path, or 26, the node there is no container
    /// though a choice, a reference, or a divert whose last component is no index needs one. A refused draft is
    /// unchanged.
    pub fn resolve_static_targets(
        &mut self,
        ink_version: u32,
        paths: &Paths<'_>,
        work: &mut [u32],
    ) -> Result<Draft<'_>, Refusal> {
        // SAFETY: the slices are ours, the mutable ones overlap nothing, and all live through the call.
        let number = unsafe {
            call_draft!(
                ffi::story_image_resolve_static_targets[ink_version],
                self.nodes.as_mut_ptr(),
                self,
                paths.entries.as_ptr(),
                paths.entries.len(),
                paths.components.as_ptr(),
                paths.components.len(),
                paths.names.as_ptr(),
                paths.names.len(),
                work.as_mut_ptr(),
                work.len()
            )
        };
        Refusal::of(number).map(|()| self.draft())
    }

    /// Nodes that have a path text, and where it lies.
    fn path_places(&self) -> impl Iterator<Item = (usize, [u32; 2])> {
        let (nodes, _) = self.nodes.as_chunks::<NODE_WORDS>();
        nodes.iter().enumerate().filter_map(|(node, words)| Some((node, path_place(words)?)))
    }

    fn path_at(&self, [offset, length]: [u32; 2]) -> PathText<'a> {
        let bytes = self.strings.get(offset as usize..).and_then(|rest| rest.get(..length as usize));
        PathText::new(bytes.and_then(|bytes| str::from_utf8(bytes).ok()).unwrap_or(""))
    }
}
