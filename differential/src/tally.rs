//! Counts of a run: answers by row, reason, kind and query, and what passed and failed.

use crate::pages;
use crate::path_index;
use crate::searched;
use crate::sleeper::met;
use crate::target_counts::met as counts;
use crate::targets;
use std::collections::BTreeMap;

#[derive(Default)]
pub struct Tally {
    pub rows: [u64; 24],
    pub reasons: BTreeMap<String, u64>,
    /// What was met in path indexes: on images that the published Rust accepts, and on others.
    pub index: [[u64; 2]; path_index::CASES.len()],
    /// Images that get 16 by the rule of the path index, by the published row.
    pub turned: BTreeMap<u32, u64>,
    pub kinds: BTreeMap<&'static str, u64>,
    /// Of each query, how often it found something, and how often nothing.
    pub queries: BTreeMap<&'static str, [u64; 2]>,
    /// What was met where depth was asked.
    pub met: BTreeMap<&'static str, u64>,
    /// What was met where pages were asked: on accepted images, and on other bytes or under other views.
    pub pages: [[u64; 2]; pages::CASES.len()],
    /// The same where list items were looked up.
    pub searches: [[u64; 2]; searched::CASES.len()],
    /// What was met in pairs of images that the sleeper's reader does not tell apart.
    pub pairs: [u64; met::PAIRS.len()],
    /// What was compared of the sleeper's reader.
    pub sleeper: [u64; met::ANSWERS.len()],
    /// By how they were made: how many, and how many of them are accepted.
    pub images: BTreeMap<&'static str, [u64; 2]>,
    pub drafts: BTreeMap<&'static str, u64>,
    pub written: BTreeMap<String, u64>,
    pub numbers: BTreeMap<u32, u64>,
    /// Of nodes that follow a path: in resolved drafts, deciding with 25, with 26.
    pub targets: [[u64; 3]; targets::CASES.len()],
    /// What was met where targets were found, drafts.
    pub resolved: [u64; targets::MET.len()],
    /// What the published function said.
    pub refused: BTreeMap<String, u64>,
    /// Other lists, by what was done and the number.
    pub lists: BTreeMap<(&'static str, u32), u64>,
    /// What our call gave, once a draft with paths.
    pub asked: BTreeMap<u32, u64>,
    /// Path texts that our side parsed.
    pub parsed: u64,
    /// What was met where targets of images were counted: on accepted images, and on other bytes or under other views.
    pub counted: [[u64; 2]; counts::IMAGES.len()],
    /// What became of changes of a target, by kind.
    pub changes: [[u64; 11]; counts::KINDS.len()],
    /// What else was met in changes.
    pub steps: [u64; counts::STEPS.len()],
    /// What was met in drafts that were counted and changed.
    pub changed: [u64; counts::DRAFTS.len()],
    /// What our call gave, once a change.
    pub set_numbers: BTreeMap<u32, u64>,
    pub passed: u64,
    pub failed: u64,
    quiet: bool,
}

impl Tally {
    /// One that prints no failures.
    pub fn quiet() -> Self {
        Tally { quiet: true, ..Tally::default() }
    }

    /// One check, with what to say and which bytes to keep if it fails.
    pub fn check(&mut self, right: bool, what: impl FnOnce() -> String, bytes: &[u8]) {
        if right {
            self.passed += 1;
            return;
        }
        self.failed += 1;
        if !self.quiet && self.failed <= 20 {
            println!("failed: {}", what());
            self.keep(bytes);
        }
    }

    fn keep(&self, bytes: &[u8]) {
        let folder = std::path::Path::new(env!("CARGO_MANIFEST_DIR")).join("target/failed");
        let file = folder.join(format!("{}.image", self.failed));
        if std::fs::create_dir_all(&folder).is_ok() && std::fs::write(&file, bytes).is_ok() {
            println!("        {} bytes in {}", bytes.len(), file.display());
        }
    }

    pub fn query<T>(&mut self, name: &'static str, answer: &Option<T>) {
        self.queries.entry(name).or_default()[usize::from(answer.is_none())] += 1;
    }

    /// So many more of what is met where depth is asked.
    pub fn met(&mut self, what: &'static str, count: u64) {
        *self.met.entry(what).or_default() += count;
    }

    pub fn print(&self) {
        println!("loads by row (0 is accepted):");
        for (row, count) in self.rows.iter().enumerate().filter(|(_, count)| **count > 0) {
            println!("    {row:2} {count:>10}");
        }
        println!("images by how they were made: all, accepted");
        for (name, [all, accepted]) in &self.images {
            println!("    {name:30} {all:>10} {accepted:>10}");
        }
        print("reasons", self.reasons.iter());
        println!("met in path indexes: accepted by the published Rust, refused by it");
        for ((name, _), [accepted, refused]) in path_index::CASES.iter().zip(self.index) {
            println!("    {name:50} {accepted:>10} {refused:>10}");
        }
        print("16 by the rule of the path index, by the published row", self.turned.iter());
        print("views by kind", self.kinds.iter());
        println!("queries: found, nothing");
        for (name, [found, nothing]) in &self.queries {
            println!("    {name:30} {found:>10} {nothing:>10}");
        }
        print("met where depth was asked", self.met.iter());
        print_cases("pages were asked", &pages::CASES, &self.pages);
        print_cases("list items were looked up", &searched::CASES, &self.searches);
        print("met in pairs of images that differ in notes and in where texts lie", met::PAIRS.iter().zip(&self.pairs));
        print("compared of the sleeper's reader", met::ANSWERS.iter().zip(&self.sleeper));
        print("drafts by how they were made", self.drafts.iter());
        print("what the published writer did", self.written.iter());
        if !self.numbers.is_empty() {
            print("our numbers for drafts", self.numbers.iter());
        }
        self.print_targets();
        self.print_counts();
    }

    fn print_targets(&self) {
        println!("nodes that follow a path: resolved, decide with 25, with 26");
        for ((name, _), [resolved, nowhere, other]) in targets::CASES.iter().zip(self.targets) {
            println!("    {name:50} {resolved:>10} {nowhere:>10} {other:>10}");
        }
        print("drafts with paths", targets::MET.iter().zip(&self.resolved));
        print("what the published function refused with", self.refused.iter());
        println!("other lists and drafts, by what was done: 0, 3, 19, 20, 21, 25, 26");
        for name in targets::lists::CHANGES.iter().map(|change| change.name).chain([targets::lists::TWO]) {
            let count = |number| self.lists.get(&(name, number)).unwrap_or(&0);
            let counts = targets::lists::NUMBERS.map(|number| format!(" {:>8}", count(number)));
            println!("    {name:36}{}", counts.concat());
        }
        if !self.asked.is_empty() {
            print("our numbers for drafts with paths", self.asked.iter());
            println!("path texts parsed by the wrapper: {}", self.parsed);
        }
    }

    fn print_counts(&self) {
        print_cases("targets were counted", &counts::IMAGES, &self.counted);
        println!(
            "changes of a target: moved, set, cleared, stays; 19; 27 short; 18: NONE, no container, outside; 27: down, up"
        );
        for ((name, _), outcomes) in counts::KINDS.iter().zip(self.changes) {
            println!("    {name:20}{}", outcomes.map(|count| format!(" {count:>8}")).concat());
        }
        print("met in changes", counts::STEPS.iter().zip(&self.steps));
        print(
            "drafts counted, in three calls each, and changed",
            counts::DRAFTS.iter().map(|(name, _)| name).zip(&self.changed),
        );
        if !self.set_numbers.is_empty() {
            print("our numbers for changes", self.set_numbers.iter());
        }
    }
}

fn print_cases(what: &str, cases: &[(&str, bool)], counts: &[[u64; 2]]) {
    println!("met where {what}: accepted, others");
    for ((name, _), [accepted, others]) in cases.iter().zip(counts) {
        println!("    {name:50} {accepted:>10} {others:>10}");
    }
}

fn print<'a, K: std::fmt::Display + 'a>(title: &str, counts: impl Iterator<Item = (&'a K, &'a u64)>) {
    println!("{title}:");
    for (name, count) in counts {
        println!("    {name:50} {count:>10}");
    }
}
