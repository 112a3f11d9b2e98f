//! Targets counted and set, by the calls themselves, since the words that are lent may be too few. Where they are enough
//! the wrapper's draft with its counts does the same.

use super::Ours;
use super::targets::open;
use super::write::draft_of;
use crate::library::Counting;
use reference::Draft;
use story_image::{CountedDraft, Image, Refusal, ffi};

fn number(answer: Result<(), Refusal>) -> u32 {
    answer.map_or_else(|refusal| refusal.0, |()| 0)
}

/// The call itself.
pub fn set_target(draft: &mut Draft, counts: &mut [u32], node: u32, target: u32) -> u32 {
    let Draft { nodes, children, named, definitions, items, payload, strings } = draft;
    // SAFETY: the slices live through the call, and nodes and counts, which alone are written, are borrowed alone.
    unsafe {
        ffi::story_image_set_target(
            nodes.as_mut_ptr(),
            nodes.len(),
            children.as_ptr(),
            children.len(),
            named.as_ptr(),
            named.len(),
            definitions.as_ptr(),
            definitions.len(),
            items.as_ptr(),
            items.len(),
            payload.as_ptr(),
            payload.len(),
            strings.as_ptr(),
            strings.len(),
            counts.as_mut_ptr(),
            counts.len(),
            node,
            target,
        )
    }
}

impl Counting for Ours {
    fn count(&self, bytes: &[u8], view: &[u32], counts: &mut [u32]) -> u32 {
        let (length, words, lent) = (bytes.len(), view.len(), counts.len());
        // SAFETY: the slices live through the call, and the counts, which alone are written, are borrowed alone.
        unsafe {
            ffi::story_image_count_targets(bytes.as_ptr(), length, view.as_ptr(), words, counts.as_mut_ptr(), lent)
        }
    }

    fn count_draft(&self, draft: &Draft, counts: &mut [u32]) -> u32 {
        number(draft_of(draft).count_targets(counts).map(|_| ()))
    }

    fn set(&self, draft: &mut Draft, counts: &mut [u32], node: u32, target: u32) -> u32 {
        let (mut copy, mut words) = (draft.clone(), counts.to_vec());
        let given = set_target(draft, counts, node, target);
        if let Ok(mut counted) = CountedDraft::resume(&mut open(&mut copy), &mut words) {
            assert_eq!(number(counted.set_target(node, Some(target))), given);
            assert!(copy == *draft && words == counts, "the wrapper's draft or counts");
        }
        given
    }
}

/// Sees of an accepted image that the wrapper gives one word a node, and 27 for one word fewer.
pub fn agrees(image: &Image<'_>) {
    let nodes = image.node_count() as usize;
    let (mut words, mut more) = (vec![0; nodes], vec![1; nodes + 1]);
    assert_eq!(image.target_counts(&mut words[1..]), Err(Refusal::BAD_SUMMARY));
    let counts = image.target_counts(&mut words).expect("a word a node");
    let again = image.target_counts(&mut more).expect("more words");
    assert!(counts == again && counts.words().len() == nodes && counts.of(nodes as u32).is_none());
}
