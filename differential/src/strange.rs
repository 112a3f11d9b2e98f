//! What the published Rust cannot be asked: queries on bytes that it does not accept or under another view, which must
//! end with parts inside the bytes, and depth, pages and look-ups there; names that are no text; walks along wrong
//! words.

use crate::depths;
use crate::images::MARK;
use crate::library::{Queries, View};
use crate::pages;
use crate::parts::NONE;
use crate::random::Random;
use crate::searched::{self, Lists};
use crate::stories::edge;
use crate::tally::Tally;
use crate::technician::texts;
use reference::{Kind, NodeView, Step};

/// The view of an image that the published Rust accepts, over damaged or cut bytes, or itself damaged.
pub fn damaged(bytes: &[u8], view: &View, random: &mut Random) -> (Vec<u8>, View) {
    let mut view = *view;
    let mut bytes = bytes.to_vec();
    match random.below(3) {
        0 => bytes.truncate(random.below(bytes.len())),
        1 => view[random.below(17)] = edge(random),
        _ => {
            for _ in 0..1 + random.below(8) {
                let at = random.below(bytes.len());
                bytes[at] = random.next() as u8;
            }
        }
    }
    (bytes, view)
}

/// Every query of such bytes under such a view.
pub fn bytes(bytes: &[u8], view: &View, ours: &dyn Queries, random: &mut Random, tally: &mut Tally) {
    let mut outside = 0;
    for node in (0..view[2].min(20)).chain([view[2], NONE]) {
        outside += ask(bytes, view, node, ours, random);
    }
    tally.check(outside == 0, || format!("{outside} parts outside strange bytes"), bytes);
    depths::strange("depth, other view", bytes, view, Some(ours), tally);
    let asked = |name| pages::Asked { name, bytes, view, ours: Some(ours) };
    pages::strange(&asked(pages::NAMES[2]), random, tally);
    searched::strange(&asked(searched::NAMES[2]), random, tally);
}

/// Asks everything about a node; counts parts that lie outside.
fn ask(bytes: &[u8], view: &View, node: u32, ours: &dyn Queries, random: &mut Random) -> usize {
    let mut places = vec![];
    if let Some(NodeView { kind, .. }) = ours.node_view(bytes, view, node) {
        places.extend(texts(&kind).into_iter().flatten());
        if let Kind::List(list) = kind {
            for index in [0, 1, 2, 3, NONE] {
                let entry = ours.list_entry(bytes, view, list, index);
                places.extend(entry.iter().map(|entry| entry.name));
                places.extend(entry.and_then(|entry| entry.origin));
                places.extend(ours.list_origin(bytes, view, list, index));
            }
        }
    }
    for index in [0, 1, 2, NONE] {
        let _ = ours.child_at(bytes, view, node, index);
        places.extend(ours.named_child_at(bytes, view, node, index).map(|entry| entry.name));
        places.extend(ours.definition(bytes, view, index).map(|(name, _)| name));
        places.extend(ours.definition_item(bytes, view, node, index).map(|(name, _)| name));
    }
    let name = crate::texts::name(random);
    let _ = ours.find_named_child(bytes, view, node, name.as_bytes());
    let _ = ours.list_item(bytes, view, name.as_bytes());
    let _ = ours.resolve_path(bytes, view, node, true, &[Step::Parent, Step::Index(0), Step::Name(name)]);
    let parts = places.into_iter().filter_map(|place| ours.text(bytes, view, place));
    parts.filter(|(start, length)| start.checked_add(*length).is_none_or(|end| end > bytes.len())).count()
}

/// The count goes to the first word that is lent, with 18 too, and to no other. None lent, none written; nor is it under
/// a short view.
fn count_words(
    bytes: &[u8],
    view: &View,
    lists: &Lists<'_>,
    ours: &dyn Queries,
    random: &mut Random,
    tally: &mut Tally,
) {
    let random = &mut random.clone();
    let name = &random.pick(&lists.names(1, &mut random.clone())).clone();
    let due = lists.looked(name);
    let answer = due.item.map(|found| [found.definition, found.item, found.value as u32]);
    let mut lent = [MARK; 4];
    let none = ours.list_item_words(bytes, view, name, &mut []) == answer;
    let short = ours.list_item_words(bytes, &view[..random.below(view.len())], name, &mut lent).is_none();
    tally.check(none && short && lent == [MARK; 4], || format!("list item {name:?}: {lent:x?} of no count"), bytes);
    let words = 1 + random.below(lent.len());
    let found = ours.list_item_words(bytes, view, name, &mut lent[..words]);
    let right = found == answer && lent == [due.searched, MARK, MARK, MARK];
    tally.check(right, || format!("list item {name:?}: due {due:?}, ours {found:?}, count {lent:x?}"), bytes);
}

/// On an image that the published Rust accepts: names that are no text name nothing, texts outside are not there, and a
/// walk finds nothing where its words go wrong.
pub fn asked(bytes: &[u8], view: &View, ours: &dyn Queries, random: &mut Random, tally: &mut Tally) {
    let node = random.below(view[2] as usize) as u32;
    let no_text = *random.pick(&[&b"\xff"[..], b"a\x80", b"\xc0\xaf", b"\xed\xa0\x80", b".\xff"]);
    let looked = ours.list_item(bytes, view, no_text);
    let nothing = ours.find_named_child(bytes, view, node, no_text).is_none() && looked.item.is_none();
    tally.check(nothing, || format!("something is named {no_text:?}"), bytes);
    let lists = Lists::by_words(bytes, view);
    let searched = looked.searched == lists.searched(no_text);
    tally.check(searched, || format!("list item {no_text:?}: {looked:?}"), bytes);
    count_words(bytes, view, &lists, ours, random, tally);
    let count = view[16];
    for place in [(count + 1, 0), (0, count + 1), (NONE, 0), (0, NONE), (NONE, NONE), (1, NONE - 1)] {
        let part = ours.text(bytes, view, place);
        tally.check(part.is_none(), || format!("a text at {place:?} of {count} bytes: {part:?}"), bytes);
    }
    let end = (view[15] as usize + count as usize, 0);
    let part = ours.text(bytes, view, (count, 0));
    tally.check(part == Some(end), || format!("the empty text at the end: {part:?}"), bytes);
    wrong_walks(bytes, view, node, ours, random, tally);
}

/// Walks along wrong words, from any node.
fn wrong_walks(bytes: &[u8], view: &View, node: u32, ours: &dyn Queries, random: &mut Random, tally: &mut Tally) {
    let Some(NodeView { kind, parent, .. }) = ours.node_view(bytes, view, node) else {
        return;
    };
    let wrong: &[u32] = match random.below(5) {
        0 => &[3, 0, 0],
        1 => &[2, 0, 4],
        2 => &[2, 4, 0],
        3 => &[NONE, NONE, NONE],
        _ => &[2, NONE, NONE],
    };
    let walk = |components: &[u32]| ours.resolve_components(bytes, view, node, true, components, b"abc");
    let skipped = !matches!(kind, Kind::Container { .. });
    let expected = if skipped { parent } else { None };
    let end = walk(wrong);
    tally.check(end == expected, || format!("walk of {wrong:?} from {node} ends at {end:?}"), bytes);
    let twice = walk(&[wrong, wrong].concat());
    tally.check(twice.is_none(), || format!("walk of {wrong:?} twice from {node} ends at {twice:?}"), bytes);
    let left_over = walk(&[0, 0, 0, 0][..if skipped { 4 } else { 1 }]);
    tally.check(left_over.is_none(), || format!("walk with words left over ends at {left_over:?}"), bytes);
}
