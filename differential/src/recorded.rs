//! What a recorded file holds, counted from its words.

use std::collections::BTreeMap;

/// Kinds of records and their names; of a query, where its number stands among the words.
const KINDS: [(u32, &str, Option<usize>); 16] = [
    (1, "image", None),
    (2, "word", None),
    (3, "bit", None),
    (4, "cut", None),
    (10, "node view", Some(1)),
    (11, "child", Some(2)),
    (12, "named child", Some(2)),
    (13, "find named child", Some(1)),
    (14, "list entry", Some(3)),
    (15, "list origin", Some(3)),
    (16, "definition", Some(1)),
    (17, "definition item", Some(2)),
    (18, "list item", Some(0)),
    (19, "walk", Some(2)),
    (20, "draft", None),
    (21, "targets", None),
];

#[derive(Default)]
pub struct Counts {
    kinds: BTreeMap<u32, u64>,
    rows: BTreeMap<u32, u64>,
    /// Of each query, and of absolute and relative walks, how often it found something, and how often nothing.
    found: BTreeMap<&'static str, [u64; 2]>,
    /// Views by kind of node.
    nodes: BTreeMap<u32, u64>,
    /// Drafts by number, and those with paths.
    drafts: BTreeMap<u32, u64>,
    targets: BTreeMap<u32, u64>,
}

impl Counts {
    /// Of a file's words, behind the first three.
    pub fn of(words: &[u32]) -> Self {
        let mut counts = Counts::default();
        let mut at = 3;
        while at < words.len() {
            let (kind, length) = (words[at], words[at + 1] as usize);
            counts.record(kind, &words[at + 2..][..length]);
            at += 2 + length;
        }
        counts
    }

    fn record(&mut self, kind: u32, words: &[u32]) {
        *self.kinds.entry(kind).or_default() += 1;
        match kind {
            1..=4 => *self.rows.entry(words[0]).or_default() += 1,
            10 if words[1] == 0 => *self.nodes.entry(words[4]).or_default() += 1,
            19 => self.query(["absolute walk", "relative walk"][words[1] as usize], words[2]),
            20 => *self.drafts.entry(words[1]).or_default() += 1,
            21 => *self.targets.entry(words[1]).or_default() += 1,
            _ => {}
        }
        for (_, name, number) in KINDS.iter().filter(|known| known.0 == kind) {
            if let Some(at) = number {
                self.query(name, words[*at]);
            }
        }
    }

    fn query(&mut self, name: &'static str, number: u32) {
        self.found.entry(name).or_default()[usize::from(number != 0)] += 1;
    }

    /// What the sample lacks of rows, kinds of nodes, answers of queries, and numbers of drafts.
    pub fn missing(&self) -> Vec<String> {
        let rows = (0..=17).filter(|row| *row != 7 && !self.rows.contains_key(row)).map(|row| format!("row {row}"));
        let tags = (1..=18).filter(|tag| *tag != 15 && !self.nodes.contains_key(tag)).map(|tag| format!("node {tag}"));
        let names = KINDS.iter().filter(|kind| kind.2.is_some()).map(|kind| kind.1);
        let names = names.chain(["absolute walk", "relative walk"]);
        let queries = names.filter(|name| self.found.get(name).is_none_or(|found| found.contains(&0)));
        let numbers = [0, 20, 21, 22].into_iter().filter(|number| !self.drafts.contains_key(number));
        let drafts = numbers.map(|number| format!("draft {number}"));
        let numbers = [0, 25, 26].into_iter().filter(|number| !self.targets.contains_key(number));
        let targets = numbers.map(|number| format!("targets {number}"));
        rows.chain(tags).chain(queries.map(str::to_owned)).chain(drafts).chain(targets).collect()
    }

    pub fn print(&self) {
        println!("records by kind:");
        for (kind, name, _) in KINDS {
            println!("    {kind:2} {name:20} {:>8}", self.kinds.get(&kind).unwrap_or(&0));
        }
        print("loads by row", &self.rows);
        print("views by kind of node", &self.nodes);
        print("drafts by number", &self.drafts);
        print("targets by number", &self.targets);
        println!("queries: found, nothing");
        for (name, [found, nothing]) in &self.found {
            println!("    {name:20} {found:>8} {nothing:>8}");
        }
    }
}

fn print(title: &str, counts: &BTreeMap<u32, u64>) {
    println!("{title}:");
    for (number, count) in counts {
        println!("    {number:2} {count:>8}");
    }
}
