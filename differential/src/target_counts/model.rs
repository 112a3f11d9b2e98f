//! What is due where targets are counted and set, from the words of the nodes: the sentences of docs/FORMAT.md, written
//! out. The self-check plants its mistakes here.

use crate::library::{View, section};
use crate::pages::Record;
use crate::parts::{ENTRY_SIZES, NONE, word_at};
use crate::published::Mistake;
use crate::targets::model::{CHOICE, DIVERT, REFERENCE, VALUE, allowed, target_word};
use reference::Draft;

/// The nodes of any bytes under any view.
pub fn records(bytes: &[u8], view: &View) -> Vec<Record> {
    let nodes = section(bytes, view, 0).chunks_exact(ENTRY_SIZES[0]);
    nodes.map(|node| std::array::from_fn(|k| word_at(node, 4 * k))).collect()
}

/// The nodes of a draft, a broken one at its end left out.
pub fn draft_records(draft: &Draft) -> &[Record] {
    draft.nodes.as_chunks().0
}

/// The target word of a node, which may be NONE; nothing of a kind without target.
pub fn target(record: &Record) -> Option<u32> {
    [CHOICE, DIVERT, VALUE, REFERENCE].contains(&record[2]).then(|| record[target_word(record[2])])
}

/// Of a draft that breaks nothing else, whether it has broken entries, no node, or a target that is not allowed: 19.
pub fn is_broken(draft: &Draft) -> bool {
    let Draft { nodes, named, definitions, items, .. } = draft;
    let sizes = [(nodes, 10), (named, 3), (definitions, 4), (items, 3)];
    let records = draft_records(draft);
    let right = |record: &Record| target(record).is_none_or(|target| allowed(record[2], target, records));
    nodes.is_empty() || sizes.iter().any(|(words, size)| words.len() % size != 0) || !records.iter().all(right)
}

/// The first test that fails decides; 0 if none does.
fn first(tests: &[(bool, u32)]) -> u32 {
    tests.iter().find(|(fails, _)| *fails).map_or(0, |(_, number)| *number)
}

/// The definition, or one with a mistake.
#[derive(Clone, Copy)]
pub struct Model(pub Mistake);

impl Model {
    fn has(self, mistake: Mistake) -> bool {
        self.0 == mistake
    }

    /// How many targets name each node. The mistakes: an absent target names node 0; one that is no node names the last.
    pub fn counts(self, records: &[Record]) -> Vec<u32> {
        let mut counts = vec![0; records.len()];
        for target in records.iter().flat_map(|record| self.read(record)) {
            let node = match self.0 {
                Mistake::CountNone if target == NONE => 0,
                Mistake::CountOutside if target != NONE => target.min(records.len() as u32 - 1),
                _ => target,
            };
            move_word(&mut counts, node, 1);
        }
        counts
    }

    /// The target word. The mistakes: f4 of every kind besides; f2 of a reference.
    fn read(self, record: &Record) -> impl Iterator<Item = u32> {
        let reference = record[2] == REFERENCE;
        let word =
            target(record).map(|target| if reference && self.has(Mistake::CountText) { record[5] } else { target });
        let more = (!reference && self.has(Mistake::CountField)).then_some(record[7]);
        word.into_iter().chain(more)
    }

    /// Fills the words in, one a node, where there are enough; and the nodes that entries name, by mistake.
    fn fill(self, records: &[Record], entries: &[u32], counts: &mut [u32]) {
        let mut due = self.counts(records);
        entries.iter().for_each(|node| move_word(&mut due, *node, 1));
        for (word, count) in counts.iter_mut().zip(due) {
            *word = if self.has(Mistake::CountAdded) { word.wrapping_add(count) } else { count };
        }
        if self.has(Mistake::CountLater) {
            counts.iter_mut().skip(records.len()).for_each(|word| *word = 0);
        }
    }

    /// The number for an image, and the words. The mistakes: 27 before 18; 27 by the view's word where the nodes do not
    /// lie in the bytes; words written before 27; named or index entries counted.
    pub fn count(self, bytes: &[u8], view: &[u32], counts: &mut [u32]) -> u32 {
        let Some(view) = view.first_chunk() else {
            let few = view.get(2).is_some_and(|nodes| counts.len() < *nodes as usize);
            return if few && self.has(Mistake::CountView) { 27 } else { 18 };
        };
        let records = records(bytes, view);
        let nodes = if self.has(Mistake::CountBounds) { view[2] as usize } else { records.len() };
        let few = counts.len() < nodes;
        if !few || self.has(Mistake::CountFew) {
            let entries = match self.0 {
                Mistake::CountNamed => entry_nodes(bytes, view, 2),
                Mistake::CountIndex => entry_nodes(bytes, view, 5),
                _ => vec![],
            };
            self.fill(&records, &entries, counts);
        }
        if few { 27 } else { 0 }
    }

    /// The number for a draft, and the words. The mistake: 27 before 19.
    pub fn count_draft(self, broken: bool, draft: &Draft, counts: &mut [u32]) -> u32 {
        let records = draft_records(draft);
        let mut tests = [(broken, 19), (counts.len() < records.len(), 27)];
        if self.has(Mistake::CountBroken) {
            tests.reverse();
        }
        let number = first(&tests);
        if number == 0 || number == 27 && self.has(Mistake::CountFew) {
            let named = draft.named.chunks_exact(3).map(|entry| entry[2]);
            let entries: Vec<u32> = named.filter(|_| self.has(Mistake::CountNamed)).collect();
            self.fill(records, &entries, counts);
        }
        number
    }

    /// Whether a node may have the target: never a node outside or of a kind without target. The mistakes: a choice and
    /// a reference lead to any node; a divert needs a target; a divert-target value needs none.
    pub fn allows(self, records: &[Record], node: u32, target: u32) -> bool {
        let Some(tag) = records.get(node as usize).filter(|record| self::target(record).is_some()).map(|r| r[2]) else {
            return false;
        };
        let inside = (target as usize) < records.len();
        match (self.0, tag) {
            (Mistake::SetChoice, CHOICE) | (Mistake::SetReference, REFERENCE) if inside => true,
            (Mistake::SetDivert, DIVERT) => inside,
            (Mistake::SetValue, VALUE) if target == NONE => true,
            _ => allowed(tag, target, records),
        }
    }

    /// The number for a change, and draft and summary after it. The mistakes are in the order of the tests, in a target
    /// that stays, in a word taken down before the other is known to fit, and in which words are written.
    pub fn set(self, broken: bool, draft: &mut Draft, counts: &mut [u32], node: u32, target: u32) -> u32 {
        let records = draft_records(draft);
        let old = records.get(node as usize).and_then(self::target);
        let few = (counts.len() < records.len(), 27);
        let forbidden = (!self.allows(records, node, target), 18);
        let stays = old == Some(target) && !self.has(Mistake::SetItself);
        let stuck = (!stays && is_stuck(counts, old, target), 27);
        let number = first(&match self.0 {
            Mistake::SetBroken => [few, forbidden, (broken, 19), stuck],
            Mistake::SetForbidden => [(broken, 19), forbidden, few, stuck],
            Mistake::SetStep => [(broken, 19), few, stuck, forbidden],
            _ => [(broken, 19), few, forbidden, stuck],
        });
        match (number, old) {
            (0, Some(old)) => self.step(draft, counts, node, [old, target]),
            (27, Some(old)) if self.has(Mistake::SetDown) && !few.0 && !is_stuck(counts, Some(old), NONE) => {
                move_word(counts, old, -1);
            }
            _ => {}
        }
        number
    }

    /// Takes the steps. The mistakes: a cleared target keeps its word; the words of a reference's path are written.
    fn step(self, draft: &mut Draft, counts: &mut [u32], node: u32, [old, new]: [u32; 2]) {
        if old != new {
            let kept = new == NONE && self.has(Mistake::SetCleared);
            move_word(counts, old, if kept { 0 } else { -1 });
            move_word(counts, new, 1);
            let record = &mut draft.nodes[10 * node as usize..][..10];
            record[if self.has(Mistake::SetText) { 5 } else { target_word(record[2]) }] = new;
        }
    }
}

/// The nodes that named or index entries name.
fn entry_nodes(bytes: &[u8], view: &View, entries: usize) -> Vec<u32> {
    section(bytes, view, entries).chunks_exact(ENTRY_SIZES[entries]).map(|entry| word_at(entry, 8)).collect()
}

/// Whether the word of the old target is 0, or that of the new one at its top; NONE has no word.
pub fn is_stuck(counts: &[u32], old: Option<u32>, new: u32) -> bool {
    let word = |node: u32| counts.get(node as usize).copied();
    old.and_then(word) == Some(0) || word(new) == Some(u32::MAX)
}

/// Takes the step; a number that is no node has no word.
fn move_word(counts: &mut [u32], node: u32, step: i32) {
    if let Some(word) = counts.get_mut(node as usize) {
        *word = word.wrapping_add_signed(step);
    }
}

#[cfg(test)]
mod tests {
    use super::*;

    const DUE: Model = Model(Mistake::None);

    /// A root with a choice to it, a divert without target, a divert-target value and a reference, each other's.
    fn draft() -> Draft {
        let leaf = |place, tag, f2, f4| [0, place, tag, 0, 0, f2, NONE, f4, 0, 0];
        let nodes: [Record; 5] = [
            [NONE, NONE, 1, NONE, NONE, 0, 0, 4, 0, 0],
            leaf(0, CHOICE, 0, 4),
            leaf(1, DIVERT, NONE, NONE),
            leaf(2, VALUE, 4, 1),
            leaf(3, REFERENCE, 3, 0),
        ];
        Draft { nodes: nodes.concat(), children: vec![1, 2, 3, 4], ..Draft::default() }
    }

    /// The number, the summary and the target words after a change.
    fn set(mut counts: Vec<u32>, node: u32, target: u32) -> (u32, Vec<u32>, [u32; 4]) {
        let mut draft = draft();
        let number = DUE.set(is_broken(&draft), &mut draft, &mut counts, node, target);
        let targets = [1, 2, 3, 4].map(|node| super::target(&draft_records(&draft)[node]).unwrap());
        (number, counts, targets)
    }

    #[test]
    fn counted() {
        let draft = draft();
        let mut counts = vec![7; 6];
        assert_eq!(DUE.count_draft(false, &draft, &mut counts), 0);
        assert_eq!(counts, [2, 0, 0, 0, 1, 7]);
        assert_eq!(DUE.count_draft(false, &draft, &mut counts[..4]), 27);
        assert_eq!(DUE.count_draft(true, &draft, &mut counts[..4]), 19);
        assert_eq!(counts, [2, 0, 0, 0, 1, 7]);
        assert!(!is_broken(&draft) && is_broken(&Draft::default()));
    }

    #[test]
    fn changed() {
        let right = vec![2, 0, 0, 0, 1];
        let before = [0, NONE, 4, 0];
        assert_eq!(set(right.clone(), 2, 4), (0, vec![2, 0, 0, 0, 2], [0, 4, 4, 0]));
        assert_eq!(set(right.clone(), 3, 3), (0, vec![2, 0, 0, 1, 0], [0, NONE, 3, 0]));
        assert_eq!(set(right.clone(), 4, NONE), (0, vec![1, 0, 0, 0, 1], [0, NONE, 4, NONE]));
        assert_eq!(set(vec![0; 5], 1, 0), (0, vec![0; 5], before));
        for (node, target) in [(1, NONE), (1, 4), (2, 5), (3, NONE), (4, 1), (0, 0), (5, 0), (NONE, 0)] {
            assert_eq!(set(right.clone(), node, target), (18, right.clone(), before));
            assert_eq!(set(vec![2; 4], node, target), (27, vec![2; 4], before));
        }
        for counts in [vec![2, 0, 0, 0, 0], vec![2, 0, NONE, 0, 1]] {
            assert_eq!(set(counts.clone(), 3, 2), (27, counts, before));
        }
    }
}
