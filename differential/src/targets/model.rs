//! Where paths beside a draft lead and what becomes of the draft, from the words of both: compared with the published
//! Rust where that has an answer, and what is due where it has none.

use crate::library::PathList;
use crate::pages::Record;
use crate::parts::NONE;
use crate::published::Mistake;
use reference::Draft;

pub const CHOICE: u32 = 2;
pub const DIVERT: u32 = 4;
pub const VALUE: u32 = 13;
pub const REFERENCE: u32 = 17;

/// Words of a node's target and of its path text.
pub fn target_word(tag: u32) -> usize {
    if tag == REFERENCE { 7 } else { 5 }
}

pub fn text_word(tag: u32) -> usize {
    if tag == REFERENCE { 5 } else { 3 }
}

/// Whether a node of this tag may have the target word, by its record rule.
pub fn allowed(tag: u32, target: u32, records: &[Record]) -> bool {
    let end = records.get(target as usize);
    let container = end.is_some_and(|record| record[2] == 1);
    match tag {
        CHOICE => container,
        DIVERT => target == NONE || end.is_some(),
        VALUE => end.is_some(),
        REFERENCE => target == NONE || container,
        _ => true,
    }
}

pub const PARENT: u32 = 0;
pub const INDEX: u32 = 1;
pub const NAME: u32 = 2;

/// An entry of the list.
#[derive(Clone, Copy, Debug, PartialEq)]
pub struct Entry {
    pub node: u32,
    pub flag: u32,
    pub first: u32,
    pub count: u32,
}

/// The entries of a list, a broken one at its end left out.
pub fn entries(paths: &PathList) -> impl Iterator<Item = Entry> {
    let entry = |words: &[u32]| Entry { node: words[0], flag: words[1], first: words[2], count: words[3] };
    paths.entries.chunks_exact(4).map(entry)
}

pub struct Model<'a> {
    draft: &'a Draft,
    paths: &'a PathList,
    /// Of each node, its entry.
    listed: Vec<Option<Entry>>,
    /// 19 for the list.
    broken: bool,
    mistake: Mistake,
}

impl<'a> Model<'a> {
    pub fn new(draft: &'a Draft, paths: &'a PathList, mistake: Mistake) -> Self {
        let mut listed = vec![None; draft.nodes.len() / 10];
        let components = paths.components.len() / 3;
        let mut broken = !paths.entries.len().is_multiple_of(4);
        for entry in entries(paths) {
            let outside = u64::from(entry.first) + u64::from(entry.count) > components as u64;
            match listed.get_mut(entry.node as usize) {
                Some(place) if entry.flag <= 1 && !outside => {
                    broken |= place.replace(entry).is_some() && mistake != Mistake::TargetTwice;
                }
                _ => broken = true,
            }
        }
        Model { draft, paths, listed, broken, mistake }
    }

    pub fn nodes(&self) -> u32 {
        self.listed.len() as u32
    }

    /// The words of a node.
    pub fn record(&self, node: u32) -> &'a [u32] {
        &self.draft.nodes[10 * node as usize..][..10]
    }

    pub fn tag(&self, node: u32) -> u32 {
        self.record(node)[2]
    }

    pub fn list_broken(&self) -> bool {
        self.broken
    }

    /// The entry of a node that follows its path: any other is passed over.
    pub fn followed(&self, node: u32) -> Option<Entry> {
        let record = self.record(node);
        let external = self.mistake == Mistake::TargetExternal && record[2] == DIVERT && record[9] & 2 != 0;
        self.listed[node as usize].filter(|_| follows(record) || external)
    }

    /// A target that 19 does not allow, of a node that is passed over.
    pub fn wrong_target(&self) -> bool {
        let tested = |node: &u32| self.followed(*node).is_none() || self.mistake == Mistake::TargetTested;
        (0..self.nodes()).filter(tested).any(|node| !self.target_right(node))
    }

    fn target_right(&self, node: u32) -> bool {
        let record = self.record(node);
        allowed(record[2], record[target_word(record[2])], self.draft.nodes.as_chunks().0)
    }

    /// The words of a component.
    pub fn component(&self, at: u32) -> &'a [u32] {
        &self.paths.components[3 * at as usize..][..3]
    }

    /// The kind of the last component, of the whole path.
    pub fn last(&self, entry: Entry) -> Option<u32> {
        (entry.count > 0).then(|| self.component(entry.first + entry.count - 1)[0])
    }

    /// The node at the end of an entry's path.
    pub fn end(&self, entry: Entry) -> Option<u32> {
        let (mut at, mut first) = (0, entry.first);
        if entry.flag == 1 || self.mistake == Mistake::TargetAbsolute {
            at = entry.node;
            if self.tag(at) != 1 {
                at = self.parent(at)?;
                let skipped = self.mistake != Mistake::TargetSkip && entry.count > 0;
                first += u32::from(skipped);
            }
        }
        for component in first..entry.first + entry.count {
            at = self.step(at, self.component(component))?;
        }
        Some(at)
    }

    fn step(&self, at: u32, component: &[u32]) -> Option<u32> {
        let record = self.record(at);
        match component[0] {
            PARENT => self.parent(at),
            INDEX if record[2] == 1 && component[1] < record[7] => {
                self.draft.children.get(record[6] as usize + component[1] as usize).copied()
            }
            NAME if record[2] == 1 => self.named(record, component),
            _ => None,
        }
    }

    fn parent(&self, at: u32) -> Option<u32> {
        Some(self.record(at)[0]).filter(|parent| *parent != NONE)
    }

    fn named(&self, record: &[u32], component: &[u32]) -> Option<u32> {
        let part = |bytes: &'a [u8], at: u32, length: u32| bytes.get(at as usize..)?.get(..length as usize);
        let name = part(&self.paths.names, component[1], component[2])?;
        let entries = self.draft.named.chunks_exact(3).skip(record[8] as usize).take(record[9] as usize);
        let mut bearing = entries.filter(|entry| part(&self.draft.strings, entry[0], entry[1]) == Some(name));
        bearing.next().map(|entry| entry[2])
    }

    /// 0, 25 or 26 of a node.
    pub fn number(&self, node: u32) -> u32 {
        let Some(entry) = self.followed(node) else {
            return 0;
        };
        let exempt = self.last(entry) == Some(INDEX) && self.mistake != Mistake::TargetIndex;
        let due = match self.tag(node) {
            CHOICE | REFERENCE => true,
            tag => tag == DIVERT && !exempt,
        };
        match self.end(entry) {
            None => 25,
            Some(end) if due && self.tag(end) != 1 => 26,
            _ => 0,
        }
    }

    /// The nodes that fail, in number order.
    pub fn failures(&self) -> impl DoubleEndedIterator<Item = (u32, u32)> + '_ {
        (0..self.nodes()).map(|node| (node, self.number(node))).filter(|(_, number)| *number != 0)
    }

    /// The number after all tests of the draft and its list, and the words of the nodes.
    pub fn answer(&self) -> (u32, Vec<u32>) {
        let mut failures = self.failures();
        let failed = if self.mistake == Mistake::TargetLast { failures.next_back() } else { failures.next() };
        let mut nodes = self.draft.nodes.clone();
        let written = match failed {
            None => self.nodes(),
            Some((node, _)) if self.mistake == Mistake::TargetEarly => node,
            Some(_) => 0,
        };
        for node in 0..written {
            self.write(node, &mut nodes[10 * node as usize..][..10]);
        }
        (failed.map_or(0, |(_, number)| number), nodes)
    }

    /// Sets the target of a node, and its path text absent.
    fn write(&self, node: u32, words: &mut [u32]) {
        let tag = words[2];
        let Some(entry) = self.followed(node) else {
            return;
        };
        words[target_word(tag)] = self.end(entry).unwrap_or(NONE);
        let kept = match self.mistake {
            Mistake::TargetKept => false,
            Mistake::TargetText => true,
            _ => tag == VALUE,
        };
        if !kept {
            words[text_word(tag)..][..2].fill(NONE);
        }
    }

    /// The draft with targets that 19 allows in the nodes that follow a path, and their other words as they are.
    pub fn harmless(&self) -> Draft {
        let mut draft = self.draft.clone();
        for node in (0..self.nodes()).filter(|node| self.followed(*node).is_some()) {
            let record = &mut draft.nodes[10 * node as usize..][..10];
            match record[2] {
                // there may be no container; a divert has its text in the same words
                CHOICE => {
                    record[2] = DIVERT;
                    record[5..].copy_from_slice(&[NONE, NONE, NONE, 0, 0]);
                }
                VALUE => record[5] = 0,
                tag => record[target_word(tag)] = NONE,
            }
        }
        draft
    }
}

/// A choice, a divert-target value, a reference, or a divert that is neither external nor by variable.
pub fn follows(record: &[u32]) -> bool {
    let plain = || record[9] & 2 == 0 && record[6] == NONE && record[7] == NONE;
    matches!(record[2], CHOICE | VALUE | REFERENCE) || record[2] == DIVERT && plain()
}
