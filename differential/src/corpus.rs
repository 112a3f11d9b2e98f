//! The cases of a run: whole families of small images, every single fault of a few images, random stories and damage,
//! drafts, definitions that share items, drafts with paths, drafts whose targets are changed.

use crate::damage;
use crate::drafts::{self, Case};
use crate::lists::{self, SHARED};
use crate::parts::{HEADER, Parts, repair, set_word};
use crate::progress::Progress;
use crate::random::Random;
use crate::small::{self, FAMILIES, TREES};
use crate::stories::{Shape, Story};
use crate::target_counts;
use crate::targets;

/// An image of many definitions comes once in so many cases: each takes long.
const MANY: u64 = 500;

/// Drafts with paths as the published function takes them, to a case.
const LISTED: u64 = 2;

/// How many drafts with paths a run has, those with other lists among them.
pub fn with_paths(cases: u64) -> u64 {
    LISTED * cases + cases
}

/// What is done with each case.
pub trait Visitor {
    fn image(&mut self, name: &'static str, bytes: &[u8], random: &mut Random);
    fn draft(&mut self, case: &Case, random: &mut Random);
    fn targets(&mut self, case: &targets::drafts::Case, random: &mut Random);
    fn changes(&mut self, case: &target_counts::Case, random: &mut Random);
    /// Whether drafts are cases at all.
    fn takes_drafts(&self) -> bool {
        true
    }
}

/// A visitor, and how far it has come.
struct Run<'a> {
    visitor: &'a mut dyn Visitor,
    progress: Progress,
    random: Random,
}

/// A prime step: spread over a family, and all of it where all are visited.
fn member(visit: u64, size: u64) -> u64 {
    (visit as u128 * 2_654_435_761 % size as u128) as u64
}

/// All cases of a run, in an order that the seed fixes.
pub fn all(name: &str, cases: u64, seed: u64, visitor: &mut dyn Visitor) {
    let families: u64 = FAMILIES.iter().map(|family| family.size.min(cases)).sum();
    let drafts = if visitor.takes_drafts() { TREES.min(cases) + cases + with_paths(cases) + cases } else { 0 };
    let lists = 2 * SHARED.min(cases) + 5 * (cases / MANY);
    let progress = Progress::new(name, families + 5 * cases + drafts + lists);
    let mut run = Run { visitor, progress, random: Random::new(seed) };
    run.families(cases);
    if drafts > 0 {
        run.tree_drafts(cases);
    }
    run.single_faults(cases);
    run.random_images(cases);
    if drafts > 0 {
        run.random_drafts(cases);
    }
    run.shared_items(cases);
    run.many_lists(cases);
    if drafts > 0 {
        run.path_lists(cases);
        run.changes(cases);
    }
    run.progress.end();
}

impl Run<'_> {
    fn image(&mut self, name: &'static str, bytes: &[u8]) {
        self.visitor.image(name, bytes, &mut self.random);
        self.progress.step();
    }

    fn draft(&mut self, case: &Case) {
        self.visitor.draft(case, &mut self.random);
        self.progress.step();
    }

    fn families(&mut self, cases: u64) {
        for family in &FAMILIES {
            for visit in 0..family.size.min(cases) {
                self.image(family.name, &(family.member)(member(visit, family.size)));
            }
        }
    }

    fn tree_drafts(&mut self, cases: u64) {
        for visit in 0..TREES.min(cases) {
            self.draft(&drafts::tree_member(member(visit, TREES)));
        }
    }

    fn single_faults(&mut self, cases: u64) {
        self.singly(&small::smallest());
        for _ in 0..1 + cases / 50_000 {
            let shape = Shape { nodes: 2 + self.random.below(8), ..Shape::random(&mut self.random) };
            let parts = Story::random(shape, &mut self.random).parts(&mut self.random);
            self.singly(&parts);
        }
    }

    fn random_images(&mut self, cases: u64) {
        for _ in 0..cases {
            let shape = Shape::random(&mut self.random);
            let parts = Story::random(shape, &mut self.random).parts(&mut self.random);
            self.image("story", &parts.bytes());
            for _ in 0..4 {
                let (name, bytes) = damage::random(&parts, &mut self.random);
                self.image(name, &bytes);
            }
        }
    }

    fn random_drafts(&mut self, cases: u64) {
        for _ in 0..cases {
            let case = drafts::random(&mut self.random);
            self.draft(&case);
        }
    }

    fn shared_items(&mut self, cases: u64) {
        for visit in 0..SHARED.min(cases) {
            let parts = lists::shared(member(visit, SHARED));
            self.image("shared items", &parts.bytes());
            let damaged = damage::lists(&parts, &mut self.random);
            self.image("shared items, damaged", &damaged);
        }
    }

    fn many_lists(&mut self, cases: u64) {
        for _ in 0..cases / MANY {
            let parts = lists::many(&mut self.random);
            self.image("many lists", &parts.bytes());
            for _ in 0..4 {
                let damaged = damage::lists(&parts, &mut self.random);
                self.image("many lists, damaged", &damaged);
            }
        }
    }

    fn path_lists(&mut self, cases: u64) {
        for _ in 0..LISTED * cases {
            let case = targets::drafts::listed(&mut self.random);
            self.visitor.targets(&case, &mut self.random);
            self.progress.step();
        }
        for _ in 0..cases {
            let case = targets::lists::other(&mut self.random);
            self.visitor.targets(&case, &mut self.random);
            self.progress.step();
        }
    }

    fn changes(&mut self, cases: u64) {
        for _ in 0..cases {
            let case = target_counts::random(&mut self.random);
            self.visitor.changes(&case, &mut self.random);
            self.progress.step();
        }
    }

    /// Every word set to every value, every cut, every bit.
    fn singly(&mut self, parts: &Parts) {
        let bytes = parts.bytes();
        self.progress.more(damage::singly_count(&bytes, parts));
        self.image("story", &bytes);
        for at in damage::word_positions(&bytes) {
            for value in damage::values(parts.counts()) {
                self.image("word, each", &damage::with_word(&bytes, at, value));
            }
        }
        for length in 0..bytes.len() {
            self.image("cut, each", &bytes[..length]);
            if length >= HEADER {
                let mut cut = bytes[..length].to_vec();
                set_word(&mut cut, 16, length as u32);
                repair(&mut cut);
                self.image("cut, each, length right", &cut);
            }
        }
        for bit in 0..8 * bytes.len() {
            let mut turned = bytes.clone();
            turned[bit / 8] ^= 1 << (bit % 8);
            self.image("bit, each", &turned);
            repair(&mut turned);
            self.image("bit, each, checksum right", &turned);
        }
    }
}
