//! Drafts with paths among the records: what the published function made of each.

use super::{Recorder, packed};
use crate::library::write_words;
use crate::published::Mistake;
use crate::random::Random;
use crate::tally::Tally;
use crate::targets::drafts::{self, Case};
use crate::targets::model::{self, Model};
use crate::targets::{self, CASES, Due, MET};
use reference::Draft;

/// Up to how often each case is recorded, and the size of the largest draft: in words, its list among them, and in the
/// work words that it needs.
const OF_CASE: u64 = 2;
const SIZE: usize = 110;
const WORK: usize = 512;

/// What does not come up here: lists that lack a path text, and what is written of a resolved draft.
const OUTSIDE: [&str; 5] = [
    "path texts, not each listed",
    "a path of an external divert, not listed",
    "a path of a divert by variable, not listed",
    "resolved, then written",
    "resolved, then 22",
];

/// What was met in drafts with paths: of nodes that follow one, of drafts.
#[derive(Default)]
pub struct Met {
    nodes: [[u64; 3]; CASES.len()],
    drafts: [u64; MET.len()],
}

impl Met {
    /// Whether one draft has something that has not come up often enough; then it is counted.
    fn takes(&mut self, one: &Tally) -> bool {
        let counts = one.targets.iter().flatten().chain(&one.resolved);
        let mine = self.nodes.iter_mut().flatten().chain(&mut self.drafts);
        let mut mine: Vec<&mut u64> = mine.zip(counts).filter(|(_, met)| **met > 0).map(|(mine, _)| mine).collect();
        let takes = mine.iter().any(|count| **count < OF_CASE);
        if takes {
            mine.iter_mut().for_each(|count| **count += 1);
        }
        takes
    }

    /// What the sample lacks.
    pub fn missing(&self) -> impl Iterator<Item = String> {
        let nodes = CASES.iter().zip(self.nodes);
        let nodes = nodes.filter(|((_, due), counts)| counts.map(|count| count > 0) != *due).map(|((what, _), _)| what);
        let drafts = MET.iter().zip(self.drafts).filter(|(what, count)| (*count > 0) == OUTSIDE.contains(what));
        nodes.chain(drafts.map(|(what, _)| what)).map(|what| format!("drafts with paths: {what}"))
    }
}

/// Whether the list gives each path text.
fn whole(case: &Case) -> bool {
    let listed: Vec<u32> = model::entries(&case.paths).map(|entry| entry.node).collect();
    drafts::path_texts(&case.draft).all(|(node, _)| listed.contains(&node))
}

fn size(case: &Case) -> usize {
    let Draft { nodes, children, named, definitions, items, payload, strings } = &case.draft;
    let words = nodes.len() + children.len() + named.len() + definitions.len() + items.len();
    words + case.paths.entries.len() + case.paths.components.len() + (payload.len() + strings.len()) / 4
}

impl Recorder {
    /// Drafts that pass 19 to 21 and whose list gives each path text, parsed, and no other path.
    pub(super) fn targets(&mut self, random: &mut Random) {
        for _ in 0..40_000 {
            let case = drafts::listed(random);
            if !whole(&case) || size(&case) > SIZE || write_words(&case.draft) > WORK {
                continue;
            }
            let mut one = Tally::default();
            let due = targets::published(&case, &Model::new(&case.draft, &case.paths, Mistake::None), &mut one);
            assert_eq!(one.failed, 0, "the definition gives what the Rust gives");
            if self.targets.takes(&one) {
                self.target(&case, &due);
            }
        }
    }

    fn target(&mut self, case: &Case, due: &Due) {
        let (draft, paths) = (&case.draft, &case.paths);
        let tables = [&draft.nodes, &draft.children, &draft.named, &draft.definitions, &draft.items];
        let bytes = [&draft.payload, &draft.strings];
        let list = [&paths.entries, &paths.components];
        let mut all = vec![case.ink, due.number];
        all.extend(tables.map(|words| words.len() as u32));
        all.extend(bytes.map(|bytes| bytes.len() as u32));
        all.extend(list.map(|words| words.len() as u32));
        all.push(paths.names.len() as u32);
        all.extend(tables.into_iter().flatten());
        all.extend(bytes.into_iter().flat_map(|bytes| packed(bytes)));
        all.extend(list.into_iter().flatten());
        all.extend(packed(&paths.names));
        all.extend(&due.nodes);
        self.put(21, all);
    }
}
