//! Targets found from paths, and path texts parsed, both through the wrapper.

use super::Ours;
use crate::library::{PathList, Targets};
use reference::Draft;
use story_image::{OpenDraft, Paths};

pub fn open(draft: &mut Draft) -> OpenDraft<'_> {
    let Draft { nodes, children, named, definitions, items, payload, strings } = draft;
    OpenDraft { nodes, children, named, definitions, items, payload, strings }
}

impl Targets for Ours {
    fn resolve(&self, ink: u32, draft: &mut Draft, paths: &PathList, work: &mut [u32]) -> u32 {
        let PathList { entries, components, names } = paths;
        match open(draft).resolve_static_targets(ink, &Paths { entries, components, names }, work) {
            Ok(_) => 0,
            Err(refusal) => refusal.0,
        }
    }

    fn paths(&self, draft: &Draft) -> PathList {
        let mut copy = draft.clone();
        let open = open(&mut copy);
        let mut words = vec![0; open.path_words()];
        if !words.is_empty() {
            assert!(open.paths(&mut words[1..]).is_err(), "a word too few");
        }
        let Paths { entries, components, names } = open.paths(&mut words).expect("as many words as it takes");
        assert_eq!(entries.len() + components.len(), open.path_words());
        PathList { entries: entries.to_vec(), components: components.to_vec(), names: names.to_vec() }
    }
}
