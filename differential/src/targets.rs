//! Targets found from paths: on drafts whose list gives the path texts, the published function; on other lists and
//! drafts, the definition. Path texts as the wrapper parses them: the published parser.

pub mod drafts;
pub mod lists;
pub mod model;

use crate::images::MARK;
use crate::library::{Library, PathList, Targets, Writer, write_words};
use crate::path_index;
use crate::published::Mistake;
use crate::random::Random;
use crate::rows::{resolver_row, writer_row};
use crate::tally::Tally;
use drafts::Case;
use model::{CHOICE, DIVERT, Entry, INDEX, Model, NAME, PARENT, VALUE, target_word};
use reference::{Draft, Resolved, Step, Written};

/// What is counted of nodes that follow a path, and whether it comes up among those of resolved drafts and those that
/// decide with 25 and 26. After 21 a name and a step up lead to containers only, so that no divert has 26.
pub const CASES: [(&str, [bool; 3]); 20] = [
    ("choice", [true, true, true]),
    ("divert", [true, true, false]),
    ("divert-target value", [true, true, false]),
    ("reference", [true, true, true]),
    ("absolute path", [true, true, true]),
    ("relative path", [true, true, true]),
    ("no component", [true, false, false]),
    ("one component", [true, true, true]),
    ("two components", [true, true, true]),
    ("three components", [true, true, true]),
    ("four components or more", [true, true, true]),
    ("the last is an index", [true, true, true]),
    ("the last is a name", [true, true, false]),
    ("the last is the parent", [true, true, false]),
    ("target before: NONE", [true, true, true]),
    ("target before: the node at the end", [true, false, true]),
    ("target before: another word", [true, true, true]),
    ("an index of 4294967295 or beyond a word", [true, true, true]),
    ("the end is a container", [true, false, false]),
    ("the end is no container", [true, false, true]),
];

/// What is counted of drafts, and must come up.
pub const MET: [&str; 17] = [
    RESOLVED,
    "refused with 25",
    "refused with 26",
    "refused, a node before has a right path",
    "25 decides, a later node has 26",
    "26 decides, a later node has 25",
    "no path to follow",
    "paths of nodes that do not rise",
    "path texts, each listed",
    "path texts, not each listed",
    "no path text",
    "a path of an external divert, listed",
    "a path of an external divert, not listed",
    "a path of a divert by variable, listed",
    "a path of a divert by variable, not listed",
    "resolved, then written",
    "resolved, then 22",
];

const RESOLVED: &str = "resolved";

/// The number and the words of the nodes that are due.
pub struct Due {
    pub number: u32,
    pub nodes: Vec<u32>,
}

pub fn compare(case: &Case, ours: Option<&dyn Library>, random: &mut Random, tally: &mut Tally) {
    let model = Model::new(&case.draft, &case.paths, Mistake::None);
    let listed = case.name == drafts::LISTED;
    let due = if listed { Some(published(case, &model, tally)) } else { defined(case, &model, ours, tally) };
    let Some(due) = due else {
        return;
    };
    if let Some(targets) = ours.and_then(Library::targets) {
        asked(case, &due, targets, random, tally);
        refused_before(case, &due, targets, random, tally);
        if listed {
            parsed(&case.draft, &targets.paths(&case.draft), tally);
        }
    }
    if due.number == 0 {
        let resolved = Draft { nodes: due.nodes, ..case.draft.clone() };
        let writer = ours.and_then(Library::writer);
        if listed {
            written(case.ink, &resolved, writer, tally);
        } else if let Some(writer) = teller(ours) {
            let number = tested(case.ink, &resolved, writer);
            tally.check(number == 0, || format!("{}: resolved, then {number}", case.name), &[]);
        }
    }
}

/// Our writer, where it can tell of any draft whether it passes 19 to 21.
pub fn teller(ours: Option<&dyn Library>) -> Option<&dyn Writer> {
    ours.filter(|ours| ours.answers_all()).and_then(Library::writer)
}

/// What the published function gives, and that the definition gives the same.
pub fn published(case: &Case, model: &Model, tally: &mut Tally) -> Due {
    let (number, nodes) = match reference::resolve(&case.draft) {
        Resolved::Nodes(nodes) => (0, nodes),
        Resolved::Refused(message) => {
            let number = resolver_row(&message).expect("every message has a number");
            *tally.refused.entry(message).or_default() += 1;
            (number, case.draft.nodes.clone())
        }
        Resolved::NoStory => unreachable!("a draft that passes 19"),
    };
    let defined = !model.list_broken() && !model.wrong_target() && model.answer() == (number, nodes.clone());
    tally.check(defined, || format!("{}: the Rust gives {number}, the definition another answer", case.name), &[]);
    count_drafts(case, model, tally);
    count_nodes(model, tally);
    Due { number, nodes }
}

/// What the definition gives; none where only our writer can tell whether the draft passes 19 to 21.
fn defined(case: &Case, model: &Model, ours: Option<&dyn Library>, tally: &mut Tally) -> Option<Due> {
    let by_writer = teller(ours).map(|writer| before(case, model, || tested(case.ink, &model.harmless(), writer)));
    let by_words = case.sound.then(|| before(case, model, || 19 * u32::from(model.wrong_target())));
    if let (Some(writer), Some(words)) = (by_writer, by_words) {
        tally.check(writer == words, || format!("{}: by the writer {writer}, by words {words}", case.name), &[]);
    }
    let before = by_writer.or(by_words)?;
    let (number, nodes) = if before == 0 { model.answer() } else { (before, case.draft.nodes.clone()) };
    *tally.lists.entry((case.name, number)).or_default() += 1;
    Some(Due { number, nodes })
}

/// The number before paths are followed, of ink version, list and tables.
fn before(case: &Case, model: &Model, tables: impl FnOnce() -> u32) -> u32 {
    match (18..=21).contains(&case.ink) {
        false => 3,
        true if model.list_broken() => 19,
        true => tables(),
    }
}

/// The writer's number up to 21, else 0.
fn tested(ink: u32, draft: &Draft, writer: &dyn Writer) -> u32 {
    let (number, _) = writer.write(ink, draft, &mut vec![MARK; write_words(draft)], &mut []);
    if number > 21 { 0 } else { number }
}

/// Our answer: number, nodes, work words.
fn asked(case: &Case, due: &Due, ours: &dyn Targets, random: &mut Random, tally: &mut Tally) {
    let (name, words) = (case.name, write_words(&case.draft));
    let mut work = vec![MARK; words + random.below(3)];
    let mut draft = case.draft.clone();
    let number = ours.resolve(case.ink, &mut draft, &case.paths, &mut work);
    *tally.asked.entry(number).or_default() += 1;
    tally.check(number == due.number, || format!("{name}: due is {}, ours {number}", due.number), &[]);
    tally.check(draft.nodes == due.nodes, || format!("{name}: other nodes after {number}"), &[]);
    let zeros = if [3, 19].contains(&due.number) { 0 } else { words };
    let right = work[..zeros].iter().all(|word| *word == 0) && work[zeros..].iter().all(|word| *word == MARK);
    tally.check(right, || format!("{name}: work words after {number}"), &[]);
}

/// A work word too few, and another ink version: nothing changes.
fn refused_before(case: &Case, due: &Due, ours: &dyn Targets, random: &mut Random, tally: &mut Tally) {
    let words = write_words(&case.draft);
    let mut stays = |ink: u32, words: usize, number: u32| {
        let (mut work, mut draft) = (vec![MARK; words], case.draft.clone());
        let given = ours.resolve(ink, &mut draft, &case.paths, &mut work);
        let right = given == number && draft == case.draft && work.iter().all(|word| *word == MARK);
        tally.check(right, || format!("{}: {given} where {number} is due, or words changed", case.name), &[]);
    };
    if ![3, 19].contains(&due.number) {
        stays(case.ink, words - 1, 7);
        stays(case.ink, random.below(words), 7);
    } else if words > 0 {
        stays(case.ink, words - 1, due.number);
    }
    stays(*random.pick(&[0, 17, 22, u32::MAX]), words, 3);
}

/// That our list gives each path text of the draft, the nodes in their order, as the published Rust parses it.
fn parsed(draft: &Draft, list: &PathList, tally: &mut Tally) {
    let (listed, texts) = (list.entries.len(), drafts::path_texts(draft).count());
    tally.check(listed == 4 * texts, || format!("{texts} path texts, {listed} words of entries"), &[]);
    for (entry, (node, text)) in model::entries(list).zip(drafts::path_texts(draft)) {
        let right = entry.node == node && path_of(list, entry) == Some(reference::steps_of(text));
        tally.check(right, || format!("path text {text:?} of node {node} is not {:?}", path_of(list, entry)), &[]);
        tally.parsed += 1;
    }
}

/// What the words of an entry say: whether the path is relative, and its components.
fn path_of(list: &PathList, entry: Entry) -> Option<(bool, Vec<Step>)> {
    let step = |words: &[u32; 3]| match *words {
        [PARENT, 0, 0] => Some(Step::Parent),
        [INDEX, index, 0] => Some(Step::Index(index)),
        [NAME, at, length] => {
            let name = list.names.get(at as usize..)?.get(..length as usize)?;
            Some(Step::Name(str::from_utf8(name).ok()?.to_owned()))
        }
        _ => None,
    };
    let components = list.components.as_chunks().0.get(entry.first as usize..)?.get(..entry.count as usize)?;
    let steps = components.iter().map(step).collect::<Option<_>>()?;
    (entry.flag <= 1).then_some((entry.flag == 1, steps))
}

/// The resolved draft written on both sides.
fn written(ink: u32, draft: &Draft, ours: Option<&dyn Writer>, tally: &mut Tally) {
    let theirs = reference::write(ink, draft);
    let (what, image) = match &theirs {
        Written::Image(image) if path_index::row(image) == 0 => ("resolved, then written", &image[..]),
        Written::Refused(message) if writer_row(message) == Some(22) => ("resolved, then 22", &[][..]),
        _ => ("", &[][..]),
    };
    tally.check(!what.is_empty(), || format!("resolved, then {theirs:?}"), &[]);
    met(what, tally);
    let Some(ours) = ours else {
        return;
    };
    let mut output = vec![0; image.len()];
    let (number, length) = ours.write(ink, draft, &mut vec![MARK; write_words(draft)], &mut output);
    let right = if image.is_empty() { number == 22 } else { number == 0 && length == image.len() };
    tally.check(right && output == image, || format!("{what}: ours {number}, {length} bytes"), image);
}

fn met(what: &str, tally: &mut Tally) {
    if let Some(at) = MET.iter().position(|known| *known == what) {
        tally.resolved[at] += 1;
    }
}

/// Of a draft, what is met in it.
fn count_drafts(case: &Case, model: &Model, tally: &mut Tally) {
    let failures: Vec<(u32, u32)> = model.failures().collect();
    let mut note = |right: bool, what: &str| {
        if right {
            met(what, tally)
        }
    };
    let later = |number: u32| failures.iter().skip(1).any(|(_, later)| *later == number);
    let first = failures.first().map_or(0, |(_, number)| *number);
    note(first == 0, RESOLVED);
    note(first == 25, "refused with 25");
    note(first == 26, "refused with 26");
    note(first == 25 && later(26), "25 decides, a later node has 26");
    note(first == 26 && later(25), "26 decides, a later node has 25");
    let followed: Vec<u32> = (0..model.nodes()).filter(|node| model.followed(*node).is_some()).collect();
    note(followed.is_empty(), "no path to follow");
    let before = failures.first().is_some_and(|(node, _)| followed.first() < Some(node));
    note(before, "refused, a node before has a right path");
    let nodes: Vec<u32> = model::entries(&case.paths).map(|entry| entry.node).collect();
    note(!nodes.is_sorted(), "paths of nodes that do not rise");
    let texts: Vec<bool> = drafts::path_texts(&case.draft).map(|(node, _)| nodes.contains(&node)).collect();
    note(!texts.is_empty() && !texts.contains(&false), "path texts, each listed");
    note(texts.contains(&false), "path texts, not each listed");
    note(texts.is_empty(), "no path text");
    for (node, record) in (0..).zip(case.draft.nodes.chunks_exact(10)) {
        if record[2] == DIVERT && !model::follows(record) && drafts::text_of(&case.draft, record).is_some() {
            let kind = if record[9] & 2 != 0 { "external divert" } else { "divert by variable" };
            let (article, listed) = (if record[9] & 2 != 0 { "an" } else { "a" }, nodes.contains(&node));
            note(true, &format!("a path of {article} {kind}, {}listed", if listed { "" } else { "not " }));
        }
    }
}

/// Of a resolved draft all nodes that follow a path, else the one that decides.
fn count_nodes(model: &Model, tally: &mut Tally) {
    let first = model.failures().next();
    let (nodes, column) = match first {
        None => (0..model.nodes(), 0),
        Some((node, number)) => (node..node + 1, number as usize - 24),
    };
    for node in nodes {
        if let Some(entry) = model.followed(node) {
            for what in classes(model, node, entry).into_iter().flatten() {
                tally.targets[what][column] += 1;
            }
        }
    }
}

/// The places in `CASES` of a node that follows a path.
fn classes(model: &Model, node: u32, entry: Entry) -> [Option<usize>; 7] {
    let tag = model.tag(node);
    let kind = match tag {
        CHOICE => 0,
        DIVERT => 1,
        VALUE => 2,
        _ => 3,
    };
    let last = model.last(entry).map(|kind| match kind {
        INDEX => 11,
        NAME => 12,
        _ => 13,
    });
    let end = model.end(entry);
    let before = match model.record(node)[target_word(tag)] {
        u32::MAX => 14,
        word if Some(word) == end => 15,
        _ => 16,
    };
    let beyond = (0..entry.count).any(|k| model.component(entry.first + k)[..2] == [INDEX, u32::MAX]);
    [
        Some(kind),
        Some(4 + entry.flag as usize),
        Some(6 + (entry.count as usize).min(4)),
        last,
        Some(before),
        beyond.then_some(17),
        end.map(|end| if model.tag(end) == 1 { 18 } else { 19 }),
    ]
}
