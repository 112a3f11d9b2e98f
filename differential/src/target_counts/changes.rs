//! Random changes of one target: mostly such as are allowed, on a draft with its right summary; else one that is
//! refused, a summary with too few words or with words at their ends, a broken draft.

use super::met::{KINDS, Outcome, STEPS, Step as Met};
use super::model::{Model, draft_records, is_broken, is_stuck, target};
use crate::pages::Record;
use crate::parts::NONE;
use crate::published::Mistake;
use crate::random::Random;
use crate::stories::edge;
use crate::tally::Tally;
use crate::targets::model::{CHOICE, DIVERT, REFERENCE, VALUE, target_word};
use reference::Draft;

/// A number whose words would begin inside, were their place counted in 32 bits.
const WRAPPING: u32 = u32::MAX / 10 + 1;

/// A change, and what is lent for it.
pub struct Change {
    pub draft: Draft,
    pub counts: Vec<u32>,
    pub node: u32,
    pub target: u32,
    /// 19.
    pub broken: bool,
    /// Draft and summary are lent as they are.
    pub whole: bool,
}

impl Change {
    /// Of a draft that passes 19, with its summary, which may have words past the nodes.
    pub fn random(draft: &Draft, counts: &[u32], random: &mut Random) -> Self {
        let records = draft_records(draft);
        let node = any_node(records, random);
        let target = any_target(records, node, random);
        let (draft, counts) = (draft.clone(), counts.to_vec());
        let mut change = Change { draft, counts, node, target, broken: false, whole: false };
        match random.below(16) {
            0 => change.break_draft(random),
            1 => change.shorten(random),
            2 => {
                change.shorten(random);
                change.break_draft(random);
            }
            3..6 => change.stick(random),
            _ => change.whole = true,
        }
        change
    }

    fn records(&self) -> &[Record] {
        draft_records(&self.draft)
    }

    /// The target before.
    fn old(&self) -> Option<u32> {
        self.records().get(self.node as usize).and_then(target)
    }

    /// Broken entries, or a target that is not allowed.
    fn break_draft(&mut self, random: &mut Random) {
        let bearing = bearing(self.records());
        let count = self.records().len() as u32;
        let nodes = &mut self.draft.nodes;
        match random.below(6) {
            0 => nodes.clear(),
            1 => nodes.push(0),
            2 => nodes.truncate(nodes.len() - 1),
            _ if bearing.is_empty() => nodes.truncate(nodes.len() - 1),
            _ => {
                let record = &mut nodes[10 * *random.pick(&bearing) as usize..][..10];
                let must = [CHOICE, VALUE].contains(&record[2]);
                record[target_word(record[2])] = *random.pick(&[if must { NONE } else { count }, count, NONE - 1]);
            }
        }
        self.broken = is_broken(&self.draft);
    }

    /// Fewer words than nodes.
    fn shorten(&mut self, random: &mut Random) {
        let nodes = self.records().len();
        let few = if random.once_in(2) { nodes - 1 } else { random.below(nodes) };
        self.counts.truncate(few);
    }

    /// Words that are 0, at their top, beside these, or anything.
    fn stick(&mut self, random: &mut Random) {
        let nodes = self.records().len();
        let (old, new) = (self.old().unwrap_or(NONE), self.target);
        let (down, up) = *random.pick(&[(0, 1), (1, NONE), (0, NONE), (NONE, NONE - 1), (0, 0), (NONE, NONE)]);
        if random.once_in(4) {
            self.counts[..nodes].iter_mut().for_each(|word| *word = edge(random));
        }
        for (node, word) in [(old, down), (new, up)] {
            if let Some(place) = self.counts[..nodes].get_mut(node as usize) {
                *place = word;
            }
        }
    }

    /// Counts what is met, with the number that is due.
    pub fn tell(&self, number: u32, tally: &mut Tally) {
        if let (Some(kind), Some(outcome)) = (self.kind(), self.outcome(number)) {
            tally.changes[kind][outcome as usize] += 1;
        }
        self.tell_refused(number, tally);
        if number == 0 {
            self.tell_done(tally);
        }
    }

    /// The place in `KINDS` of the node's kind.
    fn kind(&self) -> Option<usize> {
        let tag = self.records().get(self.node as usize)?[2];
        [CHOICE, DIVERT, VALUE, REFERENCE].iter().position(|kind| *kind == tag)
    }

    fn short(&self) -> bool {
        self.counts.len() < self.records().len()
    }

    fn outcome(&self, number: u32) -> Option<Outcome> {
        let (old, new) = (self.old()?, self.target);
        Some(match number {
            19 => Outcome::Broken,
            27 if self.short() => Outcome::Short,
            18 if new == NONE => Outcome::Absent,
            18 if (new as usize) < self.records().len() => Outcome::NoContainer,
            18 => Outcome::Outside,
            27 if is_stuck(&self.counts, Some(old), NONE) => Outcome::Down,
            27 => Outcome::Up,
            _ if old == new => Outcome::Stays,
            _ if old == NONE => Outcome::Set,
            _ if new == NONE => Outcome::Cleared,
            _ => Outcome::Moved,
        })
    }

    /// Of changes that are refused: which node, and which later test would refuse it too.
    fn tell_refused(&self, number: u32, tally: &mut Tally) {
        let (count, old, new) = (self.records().len(), self.old(), self.target);
        let mut met = |case: Met, right: bool| tally.steps[case as usize] += u64::from(right);
        let forbidden = !Model(Mistake::None).allows(self.records(), self.node, new);
        let (short, last) = (self.short(), number == 27 && !self.short());
        let word = |node: u32| self.counts.get(node as usize).copied();
        let (down, up) = (old.and_then(word) == Some(0), word(new) == Some(NONE));
        met(Met::NodeCount, number == 18 && self.node as usize == count);
        met(Met::NodeNone, number == 18 && self.node == NONE);
        met(Met::NodeWraps, number == 18 && self.node == WRAPPING);
        met(Met::NoKind, number == 18 && (self.node as usize) < count && old.is_none());
        met(Met::BothStuck, last && down && up);
        met(Met::SetStuck, last && old == Some(NONE));
        met(Met::ClearStuck, last && new == NONE);
        met(Met::BrokenShort, number == 19 && short);
        met(Met::BrokenForbidden, number == 19 && !short && forbidden);
        met(Met::ShortForbidden, number == 27 && short && forbidden);
        met(Met::ShortStays, number == 27 && short && old == Some(new));
        met(Met::NoWord, number == 27 && self.counts.is_empty());
        met(Met::ForbiddenStuck, number == 18 && (down || up));
    }

    /// Of changes that are made: which nodes, and which words.
    fn tell_done(&self, tally: &mut Tally) {
        let (count, old, new) = (self.records().len(), self.old(), self.target);
        let mut met = |case: Met, right: bool| tally.steps[case as usize] += u64::from(right);
        let word = |node: u32| self.counts[..count].get(node as usize).copied();
        let (from, to, stays) = (old.and_then(word), word(new), old == Some(new));
        met(Met::StaysAbsent, stays && new == NONE);
        met(Met::StaysZero, stays && to == Some(0));
        met(Met::StaysTop, stays && to == Some(NONE));
        met(Met::Itself, !stays && new == self.node);
        met(Met::Last, !stays && new as usize + 1 == count);
        met(Met::Root, !stays && new == 0);
        met(Met::ToZero, !stays && from == Some(1));
        met(Met::FromZero, !stays && to == Some(0));
        met(Met::ToTop, !stays && to == Some(NONE - 1));
        met(Met::FromTop, !stays && from == Some(NONE));
        met(Met::Later, self.counts.len() > count);
    }
}

/// The nodes of kinds that have a target.
fn bearing(records: &[Record]) -> Vec<u32> {
    (0..).zip(records).filter(|(_, record)| target(record).is_some()).map(|(node, _)| node).collect()
}

/// Mostly one that has a target.
fn any_node(records: &[Record], random: &mut Random) -> u32 {
    let (bearing, count) = (bearing(records), records.len() as u32);
    match random.below(12) {
        0 => *random.pick(&[count, count + 1, NONE, WRAPPING, 0, count - 1]),
        1 => random.below(records.len()) as u32,
        _ if bearing.is_empty() => random.below(records.len()) as u32,
        _ => *random.pick(&bearing),
    }
}

/// A target that is there, the node itself, NONE, the first and last node, any container, any node, one outside.
fn any_target(records: &[Record], node: u32, random: &mut Random) -> u32 {
    let count = records.len() as u32;
    let containers: Vec<u32> = (0..).zip(records).filter(|(_, record)| record[2] == 1).map(|(id, _)| id).collect();
    match random.below(14) {
        0 | 1 => records.get(node as usize).and_then(target).unwrap_or(NONE),
        2 | 3 => NONE,
        4 => node,
        5 => 0,
        6 => count - 1,
        7 => *random.pick(&[count, count + 1, NONE - 1, WRAPPING]),
        8 => edge(random),
        9..12 if !containers.is_empty() => *random.pick(&containers),
        _ => random.below(records.len()) as u32,
    }
}

const _: () = assert!(KINDS[0].1.len() == Outcome::Up as usize + 1 && STEPS.len() == Met::Later as usize + 1);
