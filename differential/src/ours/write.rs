//! Writing.

use super::Ours;
use crate::library::Writer;
use reference::Draft;
use story_image::WriteError;

pub fn draft_of(draft: &Draft) -> story_image::Draft<'_> {
    story_image::Draft {
        nodes: &draft.nodes,
        children: &draft.children,
        named: &draft.named,
        definitions: &draft.definitions,
        items: &draft.items,
        payload: &draft.payload,
        strings: &draft.strings,
    }
}

impl Writer for Ours {
    fn write(&self, ink: u32, draft: &Draft, work: &mut [u32], output: &mut [u8]) -> (u32, usize) {
        match story_image::write(ink, &draft_of(draft), work, output) {
            Ok(length) => (0, length),
            Err(WriteError::Short { needed }) => (23, needed),
            Err(WriteError::Refused(refusal)) => (refusal.0, 0),
        }
    }
}
