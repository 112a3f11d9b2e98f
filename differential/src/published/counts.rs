//! Targets counted and set, by words: the published Rust does neither. The mistakes stand in the definition.

use super::Published;
use crate::library::Counting;
use crate::target_counts::model::{Model, is_broken};
use reference::Draft;

impl Counting for Published {
    fn count(&self, bytes: &[u8], view: &[u32], counts: &mut [u32]) -> u32 {
        Model(self.0).count(bytes, view, counts)
    }

    fn count_draft(&self, draft: &Draft, counts: &mut [u32]) -> u32 {
        Model(self.0).count_draft(is_broken(draft), draft, counts)
    }

    fn set(&self, draft: &mut Draft, counts: &mut [u32], node: u32, target: u32) -> u32 {
        Model(self.0).set(is_broken(draft), draft, counts, node, target)
    }
}
