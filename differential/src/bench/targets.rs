//! Targets found from paths: both sides have their paths parsed and an unresolved copy of the draft before the clock
//! runs. Ours tests the draft by 19 to 21 besides, which the published function does not: 'tests alone' is our call on
//! the resolved draft with no path, against the same time of the published function. Of the other lines both sides are
//! ours: the list in other orders against the rising one; the tests up to 21 against those up to 19.

use super::{Duration, PUBLISHED, Sheet, black_box, counts, inputs, timed};
use crate::library::{Library, PathList, Targets, write_words};
use crate::parts::{NONE, Parts};
use crate::random::Random;
use crate::targets::drafts::{Listing, with_paths};
use crate::targets::model::target_word;
use reference::{Draft, Story, resolve_story};

/// A draft and its list, whose nodes rise.
struct Input {
    name: &'static str,
    draft: Draft,
    paths: PathList,
}

const ALL: [fn(&mut Random) -> Input; 4] = [
    |random| listed("20,000 mixed nodes with paths", mixed(20_000, random), random),
    |random| listed("200,000 mixed nodes with paths", mixed(200_000, random), random),
    |random| listed("chain of 1,000 containers, an absolute path in each", chain(1_000), random),
    |random| listed("2,000 mixed nodes with paths", mixed(2_000, random), random),
];

pub fn run(words: &str, sheet: &mut Sheet) {
    let mut random = Random::new(4);
    for make in ALL {
        let input = make(&mut random);
        if input.name.contains(words) {
            let (nodes, paths) = (input.draft.nodes.len() / 10, input.paths.entries.len() / 4);
            println!("{}: {nodes} nodes, {paths} paths, {} components", input.name, input.paths.components.len() / 3);
            sheet.input = input.name;
            measure(&input, sheet);
        }
    }
}

fn measure(input: &Input, sheet: &mut Sheet) {
    let theirs = || {
        let mut story = Story::with_paths(&input.draft).expect("a story");
        timed(|| resolve_story(black_box(&mut story)).expect("a resolved story"))
    };
    let ours = crate::OURS.and_then(Library::targets);
    let resolved = ours.map(|ours| resolved(input, ours)).unwrap_or_default();
    let none = PathList::default();
    let resolving = Call { draft: &input.draft, paths: &input.paths, number: 0 };
    let testing = Call { draft: &resolved, paths: &none, number: 0 };
    sheet.duel("resolve targets", PUBLISHED, theirs, ours.map(|ours| resolving.by(ours)));
    sheet.duel("tests alone", PUBLISHED, theirs, ours.map(|ours| testing.by(ours)));
    if let Some(ours) = ours {
        for (name, paths) in orders(&input.paths) {
            let other = Call { paths: &paths, ..resolving };
            sheet.duel(name, ["rising", "so"], resolving.by(ours), Some(other.by(ours)));
        }
        let refused = Call { number: TOO_FEW_WORDS, ..testing };
        sheet.duel("20 and 21", ["up to 19", "up to 21"], refused.by(ours), Some(testing.by(ours)));
        counts::run(&resolved, sheet);
    }
}

/// The refusal for too few work words, right after 19.
pub const TOO_FEW_WORDS: u32 = 7;

/// A call of ours that gives a number.
#[derive(Clone, Copy)]
pub struct Call<'a> {
    pub draft: &'a Draft,
    pub paths: &'a PathList,
    pub number: u32,
}

impl<'a> Call<'a> {
    /// On a copy of the draft.
    pub fn by(self, ours: &'a dyn Targets) -> impl FnMut() -> Duration + 'a {
        let mut work = vec![0; write_words(self.draft) - usize::from(self.number == TOO_FEW_WORDS)];
        move || {
            let (mut draft, mut number) = (self.draft.clone(), 0);
            let time = timed(|| number = ours.resolve(21, black_box(&mut draft), self.paths, &mut work));
            assert_eq!(number, self.number);
            time
        }
    }
}

/// The entries of a list in other orders.
fn orders(paths: &PathList) -> [(&'static str, PathList); 3] {
    let mut entries: Vec<[u32; 4]> = paths.entries.as_chunks().0.to_vec();
    let ordered = |entries: &[[u32; 4]]| PathList { entries: entries.as_flattened().to_vec(), ..paths.clone() };
    let count = entries.len();
    entries.swap(count - 1, count - 2);
    let swapped = ordered(&entries);
    entries.reverse();
    let falling = ordered(&entries);
    Random::new(6).shuffle(&mut entries);
    [("the list falls", falling), ("any order", ordered(&entries)), ("two swapped", swapped)]
}

fn resolved(input: &Input, ours: &dyn Targets) -> Draft {
    let mut draft = input.draft.clone();
    ours.resolve(21, &mut draft, &input.paths, &mut vec![0; write_words(&input.draft)]);
    draft
}

/// The draft, its targets NONE where paths give them.
fn listed(name: &'static str, parts: Parts, random: &mut Random) -> Input {
    let mut draft = parts.draft();
    let count = draft.nodes.len() as u32 / 10;
    let mut listing = Listing::default();
    listing.texts(&draft, 0..count, random);
    for entry in listing.paths.entries.chunks_exact(4) {
        let record = &mut draft.nodes[10 * entry[0] as usize..][..10];
        record[target_word(record[2])] = NONE;
    }
    Input { name, draft, paths: listing.paths }
}

fn mixed(nodes: usize, random: &mut Random) -> Parts {
    with_paths(inputs::mixed(nodes, random), None, random)
}

/// Each container holds the next and a divert, whose path leads from the root to its own container.
fn chain(containers: u32) -> Parts {
    let mut parts = Parts { ink: 21, ..Parts::default() };
    for depth in 0..containers {
        let last = depth + 1 == containers;
        let (parent, place) = if depth == 0 { (NONE, NONE) } else { (2 * depth - 2, 0) };
        let (first, count) = (parts.children.len() as u32, 2 - u32::from(last));
        parts.nodes.push([parent, place, 1, NONE, NONE, 0, first, count, 0, 0]);
        let text = vec!["0"; depth as usize].join(".");
        let (at, length) = (parts.strings.len() as u32, text.len() as u32);
        parts.nodes.push([2 * depth, count - 1, 4, at, length, NONE, NONE, NONE, 0, 0]);
        parts.strings.extend(text.into_bytes());
        parts.children.extend((!last).then_some(2 * depth + 2));
        parts.children.push(2 * depth + 1);
    }
    parts
}
