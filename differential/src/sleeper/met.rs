//! What came up where the sleeper's reader was asked.

use super::notes::{NEAR, Story, is_note};
use super::references::{At, range, words};
use super::seen::PREFIX;
use crate::names::kind;
use crate::tally::Tally;
use std::ops::Range;

/// What is met in pairs.
#[derive(Clone, Copy)]
pub enum Case {
    Pairs,
    Notes,
    Alone,
    Shorter,
    Longer,
    Emptied,
    OutsideAscii,
    CutShort,
    Large,
    Before,
    BeforeColon,
    OtherColon,
    String,
    Name,
    OfNode,
    OfList,
    Named,
    Definition,
    Item,
    Index,
    Moved,
    Kept,
    Shared,
    Over,
    NoteShared,
    Lengthened,
    Shortened,
    Unused,
    NoText,
}

pub const PAIRS: [&str; 29] = [
    "pairs of images",
    "notes",
    "notes of `tech:` alone",
    "notes that become shorter",
    "notes that become longer",
    "notes that become `tech:` alone",
    "notes that get characters outside ASCII",
    NEAR[0].name,
    NEAR[1].name,
    NEAR[2].name,
    NEAR[3].name,
    NEAR[4].name,
    "strings that begin `tech:`",
    "names of containers that begin so",
    "other texts of nodes that begin so",
    "texts of list values that begin so",
    "named entries that begin so",
    "definitions that begin so",
    "items of definitions that begin so",
    "index texts that begin so",
    "texts that are moved",
    "texts that stay where they are",
    "texts that lie where another lies",
    "texts that lie inside or across another",
    "notes that have bytes in common with another text",
    "strings sections that become longer",
    "strings sections that become shorter",
    "strings sections with bytes that are no text's",
    "strings sections that are no UTF-8 as a whole",
];

/// What is compared, where our library is linked.
#[derive(Clone, Copy, PartialEq)]
pub enum Asked {
    Pairs,
    Refused,
    Other,
}

pub const ANSWERS: [&str; 9] = [
    "answers of pairs",
    "answers of images refused after their header",
    "answers of other views and bytes",
    "18, pairs",
    "18, images refused after their header",
    "18, other views and bytes",
    "23, no room for a text",
    "images refused after their header",
    "notes in them",
];

fn met(case: Case, count: usize, tally: &mut Tally) {
    tally.pairs[case as usize] += count as u64;
}

/// An answer that was compared.
pub fn answer(asked: Asked, number: u32, tally: &mut Tally) {
    tally.sleeper[asked as usize] += 1;
    tally.sleeper[3 + asked as usize] += u64::from(number == 18);
    tally.sleeper[6] += u64::from(number == 23);
}

/// A refused image with so many notes.
pub fn refused(notes: usize, tally: &mut Tally) {
    tally.sleeper[7] += 1;
    tally.sleeper[8] += notes as u64;
}

/// Two images that differ only as no sleeper sees.
pub fn pair(story: &Story, other: &Story, tally: &mut Tally) {
    met(Case::Pairs, 1, tally);
    for text in &story.texts {
        if let Some(case) = sort(story, text.at, &text.text) {
            met(case, 1, tally);
        }
    }
    for number in story.notes() {
        note(&story.texts[number].text, &other.texts[number].text, tally);
    }
    let moved = story.texts.iter().filter(|text| words(&story.parts, text.at) != words(&other.parts, text.at)).count();
    met(Case::Moved, moved, tally);
    met(Case::Kept, story.texts.len() - moved, tally);
    let (before, after) = (story.parts.strings.len(), other.parts.strings.len());
    met(Case::Lengthened, usize::from(after > before), tally);
    met(Case::Shortened, usize::from(after < before), tally);
    for story in [story, other] {
        laid(story, tally);
    }
}

/// What a text is, if it is a note, nearly one, or begins like one.
fn sort(story: &Story, at: At, text: &str) -> Option<Case> {
    const NEARLY: [Case; NEAR.len()] = [Case::CutShort, Case::Large, Case::Before, Case::BeforeColon, Case::OtherColon];
    if story.is_tag(at) {
        let near = || NEAR.iter().position(|near| (near.is)(text)).map(|sort| NEARLY[sort]);
        return if is_note(text) { Some(Case::Notes) } else { near() };
    }
    let case = match at {
        At::Node(..) if story.tag(at) == Some(kind::STRING) => Case::String,
        At::Node(..) if story.tag(at) == Some(kind::CONTAINER) => Case::Name,
        At::Node(..) => Case::OfNode,
        At::Payload(_) => Case::OfList,
        At::Named(_) => Case::Named,
        At::Definition(_) => Case::Definition,
        At::Item(_) => Case::Item,
        At::Index(_) => Case::Index,
    };
    is_note(text).then_some(case)
}

/// A note in both images.
fn note(before: &str, after: &str, tally: &mut Tally) {
    met(Case::Alone, usize::from(before == PREFIX), tally);
    met(Case::Shorter, usize::from(after.len() < before.len()), tally);
    met(Case::Longer, usize::from(after.len() > before.len()), tally);
    met(Case::Emptied, usize::from(after == PREFIX && before != PREFIX), tally);
    met(Case::OutsideAscii, usize::from(!after.is_ascii() && after != before), tally);
}

/// How the texts lie in the strings.
fn laid(story: &Story, tally: &mut Tally) {
    let notes = story.notes();
    let mut ranges: Vec<(Range<usize>, bool)> =
        (0..story.texts.len()).map(|k| (range(&story.parts, story.texts[k].at), notes.contains(&k))).collect();
    ranges.retain(|(range, _)| !range.is_empty());
    ranges.sort_by_key(|(range, _)| (range.start, range.end));
    // of the texts before, the one that ends last
    let (mut last, mut unused) = (&(0..0, false), 0);
    for text in &ranges {
        let over = text.0.start < last.0.end;
        met(Case::Shared, usize::from(text.0 == last.0), tally);
        met(Case::Over, usize::from(over && text.0 != last.0), tally);
        met(Case::NoteShared, usize::from(over && text.1 != last.1), tally);
        unused += text.0.start.saturating_sub(last.0.end);
        if text.0.end > last.0.end {
            last = text;
        }
    }
    unused += story.parts.strings.len() - last.0.end;
    met(Case::Unused, usize::from(unused > 0), tally);
    met(Case::NoText, usize::from(core::str::from_utf8(&story.parts.strings).is_err()), tally);
}
