//! The sleeper's reader.

use crate::library::components;
use crate::library::sleeper::{Ask, Sleeper, Which};
use story_image::sleeper_ffi as ffi;

/// Of these bytes.
pub struct Reader<'a>(pub &'a [u8]);

/// Calls a query: the bytes, the view and what else it takes, then the slices that are written.
macro_rules! call {
    ($query:ident, $bytes:expr, $view:expr, ($($argument:expr),*), $($written:expr),+) => {
        // SAFETY: the slices live through the call, and those that are written are borrowed alone.
        unsafe {
            ffi::$query(
                $bytes.as_ptr(),
                $bytes.len(),
                $view.as_ptr(),
                $view.len(),
                $($argument,)*
                $($written.as_mut_ptr(), $written.len(),)+
            )
        }
    };
}

impl Reader<'_> {
    fn list(&self, view: &[u32], ask: &Ask, answer: &mut [u32], searched: &mut [u32]) -> u32 {
        let bytes = self.0;
        match ask {
            Ask::ListItemCount(node) => call!(story_image_sleeper_list_item_count, bytes, view, (*node), answer),
            Ask::ListOriginCount(node) => call!(story_image_sleeper_list_origin_count, bytes, view, (*node), answer),
            Ask::ListEntry(node, index) => {
                call!(story_image_sleeper_list_entry, bytes, view, (*node, *index), answer)
            }
            Ask::DefinitionCount => call!(story_image_sleeper_definition_count, bytes, view, (), answer),
            Ask::Definition(index) => call!(story_image_sleeper_definition, bytes, view, (*index), answer),
            Ask::FirstItem(index) => call!(story_image_sleeper_definition_first_item, bytes, view, (*index), answer),
            Ask::DefinitionItem(index, item) => {
                call!(story_image_sleeper_definition_item, bytes, view, (*index, *item), answer)
            }
            Ask::FindListItem(name) => {
                call!(story_image_sleeper_find_list_item, bytes, view, (name.as_ptr(), name.len()), answer, searched)
            }
            _ => unreachable!("{ask:?} is of no list"),
        }
    }
}

impl Sleeper for Reader<'_> {
    fn load_words(&self) -> usize {
        // SAFETY: the bytes live through the call.
        unsafe { ffi::story_image_sleeper_load_words(self.0.as_ptr(), self.0.len()) }
    }

    fn load(&self, work: &mut [u32], view: &mut [u32]) -> u32 {
        let (bytes, length) = (self.0.as_ptr(), self.0.len());
        let (words, view, room) = (work.len(), view.as_mut_ptr(), view.len());
        // SAFETY: the slices live through the call, and those that are written are borrowed alone.
        unsafe { ffi::story_image_sleeper_load(bytes, length, work.as_mut_ptr(), words, view, room) }
    }

    fn ask(&self, view: &[u32], ask: &Ask, answer: &mut [u32], searched: &mut [u32]) -> u32 {
        let bytes = self.0;
        match ask {
            Ask::NodeView(node) => call!(story_image_sleeper_node_view, bytes, view, (*node), answer),
            Ask::TextLength(Which { kind, a, b }) => {
                call!(story_image_sleeper_text_length, bytes, view, (*kind, *a, *b), answer)
            }
            Ask::Depth(node) => call!(story_image_sleeper_depth, bytes, view, (*node), answer),
            Ask::ChildCount(node) => call!(story_image_sleeper_child_count, bytes, view, (*node), answer),
            Ask::ChildAt(node, index) => call!(story_image_sleeper_child_at, bytes, view, (*node, *index), answer),
            Ask::NamedChildCount(node) => call!(story_image_sleeper_named_child_count, bytes, view, (*node), answer),
            Ask::NamedChildAt(node, index) => {
                call!(story_image_sleeper_named_child_at, bytes, view, (*node, *index), answer)
            }
            Ask::FindNamedChild(node, name) => {
                call!(story_image_sleeper_find_named_child, bytes, view, (*node, name.as_ptr(), name.len()), answer)
            }
            Ask::ResolvePath(walk) => {
                let (path, names) = components(&walk.steps);
                let (steps, texts) = (path.as_ptr(), names.as_ptr());
                call!(
                    story_image_sleeper_resolve_path,
                    bytes,
                    view,
                    (walk.origin, walk.relative, steps, path.len(), texts, names.len()),
                    answer
                )
            }
            _ => self.list(view, ask, answer, searched),
        }
    }

    fn text(&self, view: &[u32], Which { kind, a, b }: Which, text: &mut [u8], size: &mut [u32]) -> u32 {
        call!(story_image_sleeper_text, self.0, view, (kind, a, b), text, size)
    }
}
