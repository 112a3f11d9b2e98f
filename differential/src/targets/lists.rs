//! Lists and drafts on which the published Rust has no answer: what is due is told by the definition.

use super::drafts::{self, Case, Listing, text_of};
use super::model::{Entry, Model, entries, follows, target_word, text_word};
use crate::drafts as any_drafts;
use crate::library::PathList;
use crate::parts::NONE;
use crate::published::Mistake;
use crate::random::Random;
use crate::stories::edge;
use crate::texts;
use reference::Draft;

/// What is done to a draft with its list.
pub struct Change {
    pub name: &'static str,
    change: fn(&mut Case, &mut Random),
    /// The draft is still known to pass 19 to 21 but for targets.
    sound: bool,
    /// Numbers that it must lead to.
    numbers: &'static [u32],
}

pub const CHANGES: [Change; 18] = [
    Change { name: "a node twice", change: twice, sound: true, numbers: &[19] },
    Change { name: "a node outside", change: outside, sound: true, numbers: &[19] },
    Change { name: "a flag above 1", change: flag, sound: true, numbers: &[19] },
    Change { name: "components outside", change: components, sound: true, numbers: &[0, 19, 26] },
    Change { name: "broken entries", change: broken, sound: true, numbers: &[19] },
    Change { name: "a path text without an entry", change: unlisted, sound: true, numbers: &[0, 19, 25, 26] },
    Change { name: "an entry without a path text", change: textless, sound: true, numbers: &[0, 25, 26] },
    Change { name: "an entry of another kind of node", change: other_kind, sound: true, numbers: &[0, 25, 26] },
    Change { name: "a target that is passed over", change: passed_over, sound: true, numbers: &[0, 19, 25, 26] },
    Change { name: "a broken component", change: broken_component, sound: true, numbers: &[0, 25, 26] },
    Change { name: "words after the last component", change: left_over, sound: true, numbers: &[0, 25, 26] },
    Change { name: "relative without components", change: no_components, sound: true, numbers: &[0, 25, 26] },
    Change { name: "another path than the text's", change: other_path, sound: true, numbers: &[0, 25, 26] },
    Change { name: "no entry", change: no_entry, sound: true, numbers: &[0, 19] },
    Change { name: "another ink version", change: ink, sound: true, numbers: &[3] },
    Change { name: "a broken text", change: broken_text, sound: false, numbers: &[0, 19, 25, 26] },
    Change { name: "a root that is no container", change: leaf_root, sound: false, numbers: &[21] },
    Change { name: "any draft", change: any_draft, sound: false, numbers: &[0, 3, 19, 20, 21, 25, 26] },
];

/// The name of a draft with two of the changes.
pub const TWO: &str = "two of these";

/// The numbers that such drafts get.
pub const NUMBERS: [u32; 7] = [0, 3, 19, 20, 21, 25, 26];

/// Each number that a change, or two, must lead to. Of drafts that may not pass 19 to 21 nothing is due if nobody can
/// tell whether they do.
pub fn numbers(told: bool) -> impl Iterator<Item = (&'static str, u32)> {
    let asked = CHANGES.iter().filter(move |change| change.sound || told);
    let each = asked.flat_map(|change| change.numbers.iter().map(|number| (change.name, *number)));
    let two = NUMBERS.into_iter().filter(move |number| ![20, 21].contains(number) || told);
    each.chain(two.map(|number| (TWO, number)))
}

/// A draft with one or two such changes, and mostly with paths.
pub fn other(random: &mut Random) -> Case {
    let mut case = drafts::listed(random);
    while case.paths.entries.is_empty() && !random.once_in(8) {
        case = drafts::listed(random);
    }
    let first = random.pick(&CHANGES);
    (case.name, case.sound) = (first.name, first.sound);
    (first.change)(&mut case, random);
    if random.once_in(4) {
        let second = random.pick(&CHANGES);
        (second.change)(&mut case, random);
        (case.name, case.sound) = (TWO, first.sound && second.sound);
    }
    case
}

fn no_entry(case: &mut Case, _: &mut Random) {
    case.paths.entries.clear();
}

fn ink(case: &mut Case, random: &mut Random) {
    case.ink = *random.pick(&[0, 17, 22, NONE]);
}

fn entry_count(case: &Case) -> usize {
    case.paths.entries.len() / 4
}

fn node_count(case: &Case) -> u32 {
    case.draft.nodes.len() as u32 / 10
}

/// Any entry, as the first of its words.
fn any_entry(case: &Case, random: &mut Random) -> Option<usize> {
    (entry_count(case) > 0).then(|| 4 * random.below(entry_count(case)))
}

/// Puts an entry among the others.
fn insert(case: &mut Case, entry: Entry, random: &mut Random) {
    let at = 4 * random.below(entry_count(case) + 1);
    let words = [entry.node, entry.flag, entry.first, entry.count];
    case.paths.entries.splice(at..at, words);
}

/// Adds an entry of a node, with a path of its own.
fn add(case: &mut Case, node: u32, random: &mut Random) {
    let text =
        if random.once_in(2) { texts::text(random) } else { random.pick(&["", ".^", "0", "^", ".^.^"]).to_string() };
    let mut listing = Listing::of(std::mem::take(&mut case.paths));
    let whole = 4 * (listing.paths.entries.len() / 4);
    let left_over = listing.paths.entries.split_off(whole);
    listing.put(node, &text, random);
    case.paths = listing.paths;
    let words = case.paths.entries.split_off(whole);
    case.paths.entries.extend(left_over);
    insert(case, Entry { node, flag: words[1], first: words[2], count: words[3] }, random);
}

fn twice(case: &mut Case, random: &mut Random) {
    let Some(at) = any_entry(case, random) else {
        return;
    };
    let words = &case.paths.entries[at..at + 4];
    let entry = Entry { node: words[0], flag: words[1], first: words[2], count: words[3] };
    insert(case, entry, random);
}

fn outside(case: &mut Case, random: &mut Random) {
    let node = *random.pick(&[node_count(case), node_count(case) + 1, NONE, NONE - 1, 0x8000_0000]);
    insert(case, Entry { node, flag: 0, first: 0, count: 0 }, random);
}

fn flag(case: &mut Case, random: &mut Random) {
    if let Some(at) = any_entry(case, random) {
        case.paths.entries[at + 1] = *random.pick(&[2, 3, 0x100, NONE]);
    }
}

fn components(case: &mut Case, random: &mut Random) {
    let all = case.paths.components.len() as u32 / 3;
    if let Some(at) = any_entry(case, random) {
        // the first is outside by one; the second ends where the components do
        let places = [(0, all + 1), (all, 0), (all + 1, 0), (NONE, 1), (1, NONE), (NONE, NONE), (all, 1), (0, NONE)];
        (case.paths.entries[at + 2], case.paths.entries[at + 3]) = *random.pick(&places);
    }
}

fn broken(case: &mut Case, random: &mut Random) {
    let length = case.paths.entries.len();
    match random.below(2) {
        0 if length > 0 => case.paths.entries.truncate(length - 1 - random.below(3)),
        _ => case.paths.entries.extend(vec![0; 1 + random.below(3)]),
    }
}

fn unlisted(case: &mut Case, random: &mut Random) {
    if let Some(at) = any_entry(case, random) {
        case.paths.entries.drain(at..at + 4);
    }
}

/// Takes the text of a node away, so that its entry is alone; a divert-target value must have its text.
fn textless(case: &mut Case, random: &mut Random) {
    let Some(at) = any_entry(case, random) else {
        return;
    };
    let node = case.paths.entries[at] as usize;
    if let Some(record) =
        case.draft.nodes.chunks_exact_mut(10).nth(node).filter(|record| [2, 4, 17].contains(&record[2]))
    {
        let text = text_word(record[2]);
        record[text..text + 2].fill(NONE);
    }
}

fn other_kind(case: &mut Case, random: &mut Random) {
    let records = case.draft.nodes.chunks_exact(10);
    let others: Vec<u32> = (0..).zip(records).filter(|(_, r)| !follows(r)).map(|(id, _)| id).collect();
    if others.is_empty() {
        return;
    }
    let node = *random.pick(&others);
    if entries(&case.paths).all(|entry| entry.node != node) {
        add(case, node, random);
    }
}

/// Gives a node that is passed over any word as its target.
fn passed_over(case: &mut Case, random: &mut Random) {
    let model = Model::new(&case.draft, &case.paths, Mistake::None);
    let bears = |node: &u32| [2, 4, 13, 17].contains(&model.tag(*node)) && model.followed(*node).is_none();
    let nodes: Vec<u32> = (0..model.nodes()).filter(bears).collect();
    if !nodes.is_empty() {
        let node = *random.pick(&nodes);
        let (low, any) = (random.below(4) as u32, edge(random));
        let target = *random.pick(&[NONE, model.nodes(), model.nodes() - 1, low, any]);
        let word = 10 * node as usize + target_word(model.tag(node));
        case.draft.nodes[word] = target;
    }
}

fn broken_component(case: &mut Case, random: &mut Random) {
    let names = case.paths.names.len() as u32;
    let count = case.paths.components.len() / 3;
    if count > 0 {
        let words = [[3, 0, 0], [NONE, 0, 0], [2, 0, names + 1], [2, names + 1, 0], [2, NONE, NONE], [2, names, 0]];
        let at = 3 * random.below(count);
        case.paths.components[at..at + 3].copy_from_slice(&random.pick(&words)[..]);
    }
}

fn left_over(case: &mut Case, random: &mut Random) {
    case.paths.components.extend(vec![edge(random); 1 + random.below(2)]);
}

fn no_components(case: &mut Case, random: &mut Random) {
    if let Some(at) = any_entry(case, random) {
        (case.paths.entries[at + 1], case.paths.entries[at + 3]) = (1, 0);
    }
}

/// Exchanges the paths of two nodes, or takes one apart.
fn other_path(case: &mut Case, random: &mut Random) {
    let (Some(one), Some(two)) = (any_entry(case, random), any_entry(case, random)) else {
        return;
    };
    let words = &mut case.paths.entries;
    match random.below(3) {
        0 => (words[one], words[two]) = (words[two], words[one]),
        1 => words[one + 1] = 1 - words[one + 1].min(1),
        _ => words[one + 3] = words[one + 3].saturating_sub(1),
    }
}

/// Breaks a text of a node that has an entry: 19 tests it still.
fn broken_text(case: &mut Case, random: &mut Random) {
    let strings = case.draft.strings.len() as u32;
    let Some(at) = any_entry(case, random) else {
        return;
    };
    let node = case.paths.entries[at] as usize;
    if let Some(record) = case.draft.nodes.chunks_exact_mut(10).nth(node) {
        let place = *random.pick(&[[NONE, 0], [0, NONE], [strings, 1], [strings + 1, 0], [NONE, NONE]]);
        record[*random.pick(&[3, 5, 6])..][..2].copy_from_slice(&place);
    }
}

/// A draft of one node, which may follow a path: 21 and not 19.
fn leaf_root(case: &mut Case, random: &mut Random) {
    let mut node = vec![NONE, NONE, *random.pick(&[2, 4, 13, 17, 5]), 0, 0, NONE, NONE, NONE, 0, 0];
    let target = target_word(node[2]);
    node[target] = edge(random);
    case.draft = Draft { nodes: node, ..Draft::default() };
    case.paths.entries.clear();
    add(case, 0, random);
}

/// A draft that may break any rule, with entries of some nodes.
fn any_draft(case: &mut Case, random: &mut Random) {
    let draft = any_drafts::random(random);
    (case.ink, case.draft, case.paths) = (draft.ink, draft.draft, Default::default());
    let mut listing = Listing::of(PathList::default());
    for node in 0..node_count(case) {
        let record = &case.draft.nodes[10 * node as usize..][..10];
        if let Some(text) = text_of(&case.draft, record).filter(|_| !random.once_in(4)) {
            let text = if random.once_in(2) { text } else { *random.pick(&["", ".^", ".^.0", ".^.1"]) };
            listing.put(node, text, random);
        }
    }
    case.paths = listing.paths;
}
