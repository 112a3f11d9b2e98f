//! A draft counted; then, if its tables are right, a chain of changes, each predicted from the words of draft and
//! summary; at its end the summary is counted anew, and the changed draft is written.

use super::changes::Change;
use super::images::by_views;
use super::met::{DRAFTS, Draft as Met};
use super::model::{Model, draft_records, records};
use crate::depths;
use crate::drafts::{self, Known};
use crate::images::MARK;
use crate::library::{Counting, Library, Writer, header_view, load_words, write_words};
use crate::path_index;
use crate::published::Mistake;
use crate::random::Random;
use crate::rows::writer_row;
use crate::stories::{Shape, Story};
use crate::tally::Tally;
use crate::targets::drafts::with_paths;
use crate::targets::teller;
use reference::{Draft, Written};

/// The definition.
const DUE: Model = Model(Mistake::None);

/// A draft to be counted and changed.
pub struct Case {
    name: &'static str,
    ink: u32,
    draft: Draft,
    /// Whether 19 is due, where that is known by how it was made.
    broken: Option<bool>,
    /// It is known to pass 19 to 21.
    sound: bool,
}

impl Case {
    /// One of the drafts that are written.
    pub fn of(case: &drafts::Case) -> Self {
        let broken = match case.known {
            Known::Sound => Some(false),
            Known::Number(number) => Some(number == 19),
            Known::Refused | Known::Nothing => None,
        };
        let (name, ink, draft, sound) = (case.name, case.ink, case.draft.clone(), case.known == Known::Sound);
        Case { name, ink, draft, broken, sound }
    }
}

const TARGETS: &str = "many targets";

/// A sound draft with many targets.
pub fn random(random: &mut Random) -> Case {
    let any = Shape::random(random);
    let shape = Shape { nodes: any.nodes.max(*random.pick(&[1, 4, 8, 16])), containers: 1 + random.below(6), ..any };
    let parts = Story::random(shape, random).parts(random);
    let parts = with_paths(parts, None, random);
    Case { name: TARGETS, ink: parts.ink, draft: parts.draft(), broken: Some(false), sound: true }
}

/// Counts and changes a draft of which somebody can tell whether it passes 19. The random numbers are those of a copy, as
/// for pages.
pub fn compare(case: &Case, ours: Option<&dyn Library>, random: &Random, tally: &mut Tally) {
    let told = teller(ours).map(|writer| breaks(&case.draft, writer));
    if let (Some(told), Some(known)) = (told, case.broken) {
        tally.check(told == known, || format!("{}: 19 {known}, by the writer {told}", case.name), &[]);
    }
    let Some(broken) = told.or(case.broken) else {
        return;
    };
    let random = &mut random.clone();
    counted(case, broken, ours.and_then(Library::counting), random, tally);
    if !broken {
        let mut chain = Chain { case, ours, draft: case.draft.clone(), counts: vec![], steps: 0 };
        chain.counts = DUE.counts(draft_records(&case.draft));
        chain.counts.extend(vec![MARK; random.below(3)]);
        let longest = if case.name == TARGETS { *random.pick(&[4, 12, 30]) } else { 3 };
        for _ in 0..1 + random.below(longest) {
            chain.change(random, tally);
        }
        chain.end(tally);
    }
}

/// Whether the writer gives 19: with no work words it ends there.
fn breaks(draft: &Draft, writer: &dyn Writer) -> bool {
    writer.write(21, draft, &mut [], &mut []).0 == 19
}

fn met(case: Met, right: bool, tally: &mut Tally) {
    tally.changed[case as usize] += u64::from(right);
}

/// The count of a draft: with fewer words than nodes, with as many, with more.
fn counted(case: &Case, broken: bool, ours: Option<&dyn Counting>, random: &mut Random, tally: &mut Tally) {
    let nodes = case.draft.nodes.len() / 10;
    let few = if random.once_in(2) { nodes.saturating_sub(1) } else { random.below(nodes) };
    for lent in [few, nodes, nodes + 1 + random.below(3)] {
        let mut due = vec![MARK; lent];
        let number = DUE.count_draft(broken, &case.draft, &mut due);
        met(Met::Counted, number == 0, tally);
        met(Met::Broken, number == 19, tally);
        met(Met::BrokenFew, number == 19 && lent < nodes, tally);
        met(Met::Few, number == 27, tally);
        met(Met::NoTarget, number == 0 && due[..nodes].iter().all(|count| *count == 0), tally);
        if let Some(ours) = ours {
            let mut words = vec![MARK; lent];
            let given = ours.count_draft(&case.draft, &mut words);
            let right = given == number && words == due;
            tally.check(right, || format!("{}, counted: due {number}, ours {given}", case.name), &[]);
        }
    }
}

/// Changes one after the other: the draft and its summary as they are due.
struct Chain<'a> {
    case: &'a Case,
    ours: Option<&'a dyn Library>,
    draft: Draft,
    counts: Vec<u32>,
    /// How many changes took a step.
    steps: usize,
}

impl Chain<'_> {
    /// One change: number, draft and summary as they are due.
    fn change(&mut self, random: &mut Random, tally: &mut Tally) {
        let change = Change::random(&self.draft, &self.counts, random);
        let (mut draft, mut counts) = (change.draft.clone(), change.counts.clone());
        let (node, target) = (change.node, change.target);
        let number = DUE.set(change.broken, &mut draft, &mut counts, node, target);
        change.tell(number, tally);
        if let Some(writer) = teller(self.ours).filter(|_| !change.whole) {
            let told = breaks(&change.draft, writer);
            tally.check(told == change.broken, || format!("19 {}, by the writer {told}", change.broken), &[]);
        }
        if let Some(ours) = self.ours.and_then(Library::counting) {
            let (mut nodes, mut words) = (change.draft.clone(), change.counts.clone());
            let given = ours.set(&mut nodes, &mut words, node, target);
            *tally.set_numbers.entry(given).or_default() += 1;
            let what = || format!("{}: {target} as the target of {node}", self.case.name);
            tally.check(given == number, || format!("{}: due {number}, ours {given}", what()), &[]);
            tally.check(nodes == draft, || format!("{}: another draft after {given}", what()), &[]);
            tally.check(words == counts, || format!("{}: {counts:?}, ours {words:?}", what()), &[]);
        }
        if change.whole {
            self.steps += usize::from(number == 0 && draft != self.draft);
            (self.draft, self.counts) = (draft, counts);
        }
    }

    /// The summary is still right: counted anew. The draft passes and fails the writer's tests as before.
    fn end(&self, tally: &mut Tally) {
        met(Met::Long, self.steps >= 5, tally);
        let nodes = draft_records(&self.draft);
        let counts = &self.counts[..nodes.len()];
        let right = DUE.counts(nodes) == counts;
        tally.check(right, || format!("{}: {} steps, the summary is wrong", self.case.name, self.steps), &[]);
        if let Some(ours) = self.ours.and_then(Library::counting) {
            let mut words = vec![MARK; nodes.len()];
            let number = ours.count_draft(&self.draft, &mut words);
            let right = number == 0 && words == counts;
            tally.check(right, || format!("{}: counted anew {number}, {words:?}", self.case.name), &[]);
        }
        if let Some(writer) = teller(self.ours) {
            self.tested(writer, tally);
        }
        if self.case.sound {
            self.written(tally);
        }
    }

    /// Our writer's number and length, before and after.
    fn tested(&self, writer: &dyn Writer, tally: &mut Tally) {
        let write = |draft| writer.write(21, draft, &mut vec![MARK; write_words(draft)], &mut []);
        let (before, after) = (write(&self.case.draft), write(&self.draft));
        let name = self.case.name;
        tally.check(before == after, || format!("{name}: the writer gave {before:?}, changed {after:?}"), &[]);
        met(Met::Unreached, after.0 == 20, tally);
        met(Met::Tree, after.0 == 21, tally);
    }

    /// Of a sound draft: the published image of the changed one, whose views show as many targets, node by node of the
    /// new numbering; our writer's bytes, and our count of them.
    fn written(&self, tally: &mut Tally) {
        let theirs = reference::write(self.case.ink, &self.draft);
        let image = match &theirs {
            Written::Image(image) if path_index::row(image) == 0 => &image[..],
            Written::Refused(message) if writer_row(message) == Some(22) => &[],
            _ => return tally.check(false, || format!("{}: changed, then {theirs:?}", self.case.name), &[]),
        };
        met(Met::Written, !image.is_empty(), tally);
        met(Met::Clash, image.is_empty(), tally);
        if !image.is_empty() {
            let due = self.renumbered();
            let loaded = reference::load(image).unwrap_or_else(|reason| panic!("{reason}"));
            let shown = by_views(&depths::views(&loaded), &records(image, &header_view(image)));
            let right = shown == due;
            tally.check(right, || format!("{}: changed and written, other targets", self.case.name), image);
            self.counted(image, &due, tally);
        }
        if let Some(writer) = self.ours.and_then(Library::writer) {
            let mut output = vec![0; image.len()];
            let work = &mut vec![MARK; write_words(&self.draft)];
            let (number, _) = writer.write(self.case.ink, &self.draft, work, &mut output);
            let right = number == if image.is_empty() { 22 } else { 0 } && output == image;
            tally.check(right, || format!("{}: changed, ours writes {number}", self.case.name), image);
        }
    }

    /// The written image loads, and its count is the summary in the new numbering.
    fn counted(&self, image: &[u8], due: &[u32], tally: &mut Tally) {
        let Some((ours, counting)) = self.ours.and_then(|ours| Some((ours, ours.counting()?))) else {
            return;
        };
        let (number, view) = ours.load(image, &mut vec![MARK; load_words(image)]);
        let mut words = vec![MARK; due.len()];
        let counted = counting.count(image, &view, &mut words);
        let right = number == 0 && counted == 0 && words == due;
        tally.check(right, || format!("{}: written, {number} and {counted}, {words:?}", self.case.name), image);
    }

    /// The summary in the order of the writer's numbers: node, ordered children, named children.
    fn renumbered(&self) -> Vec<u32> {
        let records = draft_records(&self.draft);
        let (mut seen, mut pending, mut words) = (vec![false; records.len()], vec![0], vec![]);
        while let Some(node) = pending.pop() {
            if std::mem::replace(&mut seen[node as usize], true) {
                continue;
            }
            words.push(self.counts[node as usize]);
            let [_, _, tag, _, _, _, first, count, first_named, named] = records[node as usize].map(|w| w as usize);
            if tag == 1 {
                let entries = self.draft.named.chunks_exact(3).skip(first_named).take(named);
                pending.extend(entries.map(|entry| entry[2]).rev());
                pending.extend(self.draft.children[first..][..count].iter().rev());
            }
        }
        words
    }
}

const _: () = assert!(DRAFTS.len() == Met::Tree as usize + 1);
