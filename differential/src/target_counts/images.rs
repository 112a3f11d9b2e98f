//! Counts of images: by the published views, by words.

use super::met::{IMAGES, Image};
use super::model::{Model, records, target};
use crate::images::MARK;
use crate::library::{Counting, View, section};
use crate::pages::Record;
use crate::parts::{ENTRY_SIZES, NONE, word_at};
use crate::published::Mistake;
use crate::random::Random;
use crate::tally::Tally;
use crate::targets::model::{CHOICE, DIVERT, REFERENCE, VALUE, target_word};
use reference::{Kind, NodeView};
use std::collections::HashSet;

/// Of each kind that has a target: what is met where it names a node, and where it is absent.
const KINDS: [(u32, Image, Image); 4] = [
    (CHOICE, Image::Choice, Image::OtherAbsent),
    (DIVERT, Image::Divert, Image::DivertAbsent),
    (VALUE, Image::Value, Image::OtherAbsent),
    (REFERENCE, Image::Reference, Image::ReferenceAbsent),
];

/// An image that the published Rust accepts: by the targets that its views show, and their number. The node of a
/// divert-target value, which they do not show, is taken from its words.
pub fn accepted(
    bytes: &[u8],
    view: &View,
    views: &[Option<NodeView>],
    ours: Option<&dyn Counting>,
    random: &Random,
    tally: &mut Tally,
) {
    let records = records(bytes, view);
    let due = by_views(views, &records);
    let by_words = Model(Mistake::None).counts(&records);
    tally.check(by_words == due, || "counts: by views and by words differ".to_owned(), bytes);
    let given = Asked { bytes, view, records: &records, due: &due, column: 0 }.ask(ours, random, tally);
    if let Some(given) = given {
        let sum: u64 = given.iter().map(|word| u64::from(*word)).sum();
        let present = targets(views, &records).count() as u64;
        tally.check(sum == present, || format!("counts: a sum of {sum}, {present} targets"), bytes);
    }
}

/// How many targets of the published views name each node.
pub fn by_views(views: &[Option<NodeView>], records: &[Record]) -> Vec<u32> {
    let mut counts = vec![0; records.len()];
    targets(views, records).for_each(|target| counts[target as usize] += 1);
    counts
}

fn targets(views: &[Option<NodeView>], records: &[Record]) -> impl Iterator<Item = u32> {
    let shown = |(view, record): (&Option<NodeView>, &Record)| match view.as_ref()?.kind {
        Kind::Choice { target, .. } | Kind::Divert { target, .. } | Kind::Reference { target, .. } => target,
        Kind::DivertTarget(_) => target(record),
        _ => None,
    };
    views.iter().zip(records).filter_map(shown)
}

/// Bytes that were refused, or under a view that is not theirs.
pub fn strange(bytes: &[u8], view: &View, ours: Option<&dyn Counting>, random: &Random, tally: &mut Tally) {
    let records = records(bytes, view);
    let due = Model(Mistake::None).counts(&records);
    Asked { bytes, view, records: &records, due: &due, column: 1 }.ask(ours, random, tally);
}

/// An image that is asked, and the words that are due.
struct Asked<'a> {
    bytes: &'a [u8],
    view: &'a View,
    records: &'a [Record],
    due: &'a [u32],
    /// 0 where the published Rust accepts the image, else 1.
    column: usize,
}

impl Asked<'_> {
    /// Counts what is met, and asks our library: the words of the nodes. The random numbers are those of a copy, as for
    /// pages.
    fn ask(&self, ours: Option<&dyn Counting>, random: &Random, tally: &mut Tally) -> Option<Vec<u32>> {
        let (random, nodes) = (&mut random.clone(), self.due.len());
        let (later, short, lent) = (random.below(3), random.below(self.view.len()), random.below(nodes + 2));
        self.nodes(tally);
        self.words(tally);
        self.met(Image::Later, later > 0, tally);
        self.met(Image::Few, nodes > 0, tally);
        self.met(Image::Short, true, tally);
        self.met(Image::ShortAndFew, short > 2 && lent < nodes, tally);
        let ours = ours?;
        self.refused(18, ours, &self.view[..short], lent, tally);
        if let Some(few) = nodes.checked_sub(1) {
            self.refused(27, ours, self.view, few, tally);
        }
        let mut words = vec![MARK; nodes + later];
        let number = ours.count(self.bytes, self.view, &mut words);
        let (counts, later) = words.split_at(nodes);
        let right = number == 0 && counts == self.due && later.iter().all(|word| *word == MARK);
        tally.check(right, || format!("counts: {number}, due {:?}, ours {words:?}", self.due), self.bytes);
        words.truncate(nodes);
        Some(words)
    }

    /// A refusal writes nothing.
    fn refused(&self, due: u32, ours: &dyn Counting, view: &[u32], lent: usize, tally: &mut Tally) {
        let mut words = vec![MARK; lent];
        let number = ours.count(self.bytes, view, &mut words);
        let right = number == due && words.iter().all(|word| *word == MARK);
        let of = view.len();
        tally.check(right, || format!("counts: {number} for {due}, {lent} words, {of} of the view"), self.bytes);
    }

    fn met(&self, case: Image, right: bool, tally: &mut Tally) {
        tally.counted[case as usize][self.column] += u64::from(right);
    }

    /// What is met in the words of the nodes.
    fn nodes(&self, tally: &mut Tally) {
        let inside = |word: u32| (word as usize) < self.records.len();
        let mut met = |case: Image, right: bool| self.met(case, right, tally);
        for (node, record) in (0..).zip(self.records) {
            met(Image::Field, record[2] != REFERENCE && inside(record[7]));
            met(Image::Text, record[2] == REFERENCE && inside(record[5]));
            if let Some((tag, present, absent)) = KINDS.iter().find(|(tag, ..)| *tag == record[2]) {
                let target = record[target_word(*tag)];
                met(*present, inside(target));
                met(*absent, target == NONE);
                met(Image::Outside, target != NONE && !inside(target));
                met(Image::Itself, target == node);
                met(Image::Last, inside(target) && !inside(target + 1));
            }
        }
    }

    /// What is met in the words that are due, and beside them in named and index entries.
    fn words(&self, tally: &mut Tally) {
        let entries = [2, 5].into_iter().flat_map(|k| section(self.bytes, self.view, k).chunks_exact(ENTRY_SIZES[k]));
        let entries: HashSet<u32> = entries.map(|entry| word_at(entry, 8)).collect();
        for (node, count) in (0..).zip(self.due) {
            self.met(Image::Several, *count > 1, tally);
            self.met(Image::Entries, *count == 0 && entries.contains(&node), tally);
        }
        self.met(Image::NoTarget, self.due.iter().all(|count| *count == 0), tally);
        self.met(Image::NotInBytes, self.view[2] > 0 && self.due.is_empty(), tally);
    }
}

const _: () = assert!(IMAGES.len() == Image::NotInBytes as usize + 1);
