//! Records that are wrong on purpose, so that a replay that compares nothing is noticed.
//!
//! Behind the first record of each kind, and of each answer of a query and each number of a draft, stand copies with one
//! word of the answer changed: a query that found something is said to have found nothing, and one word after another is
//! another one; a query that found nothing is said to have found zeros. A load's row is another one. A draft's number is
//! another one, its image has another byte, one byte less, or one more. Of a draft with paths the number is another one,
//! 0 where it is refused and refused where it is not; a word that was set in a node is as it was, or another one; the
//! last word of the nodes is another one, also where the draft is refused. Besides, a record of no known kind, a query of an image that is refused, and a walk
//! of more components than are replayed.

use std::collections::HashSet;

/// Of a query: where its number stands among the record's words, and how many words the answer has behind it.
fn answer(kind: u32) -> Option<(usize, usize)> {
    match kind {
        10 => Some((1, 10)),
        11 => Some((2, 1)),
        12 => Some((2, 3)),
        13 => Some((1, 1)),
        14 => Some((3, 5)),
        15 => Some((3, 2)),
        16 => Some((1, 3)),
        17 => Some((2, 3)),
        18 => Some((0, 3)),
        19 => Some((2, 1)),
        _ => None,
    }
}

fn with(words: &[u32], at: usize, word: u32) -> Vec<u32> {
    let mut words = words.to_vec();
    words[at] = word;
    words
}

fn another(words: &[u32], at: usize) -> Vec<u32> {
    with(words, at, words[at] ^ 1)
}

fn of_query(words: &[u32], at: usize, count: usize) -> Vec<Vec<u32>> {
    if words[at] == 0 {
        let nothing = with(words, at, 18);
        (1..=count).map(|k| another(words, at + k)).chain([nothing]).collect()
    } else {
        vec![with(words, at, 0), with(words, at, 17)]
    }
}

/// The image stands behind ten words, the sections and the strings; its length is the last of the ten.
fn of_draft(words: &[u32]) -> Vec<Vec<u32>> {
    let number = words[1];
    if number != 0 {
        let other = if number == 20 { 22 } else { 20 };
        let written = with(words, 1, 0);
        return if number == 21 { vec![written] } else { vec![written, with(words, 1, other)] };
    }
    let longer = with(words, 9, words[9] + 1);
    let longer = longer.into_iter().chain([0]).collect();
    let numbers = [20, 21, 22].map(|number| with(words, 1, number));
    [another(words, words.len() - 1), with(words, 9, words[9] - 1), longer].into_iter().chain(numbers).collect()
}

/// Of a draft with paths, the words that are other ones after the call: what they were, and where they stand. The nodes
/// stand behind twelve words, and after the call at the end; their length is the third of the twelve.
fn set_words(words: &[u32]) -> impl Iterator<Item = (usize, u32)> {
    let length = words[2] as usize;
    let (before, end) = (&words[12..][..length], words.len() - length);
    before.iter().enumerate().map(move |(k, word)| (end + k, *word)).filter(|(at, word)| words[*at] != *word)
}

fn of_targets(words: &[u32]) -> Vec<Vec<u32>> {
    let numbers = [0, 25, 26].into_iter().filter(|number| *number != words[1]).map(|number| with(words, 1, number));
    // as a rule the path text and the target of one node
    let set: Vec<(usize, u32)> = set_words(words).take(3).collect();
    let left = set.iter().map(|(at, word)| with(words, *at, *word));
    let changed = set.iter().map(|(at, _)| *at).chain([words.len() - 1]).map(|at| another(words, at));
    numbers.chain(left).chain(changed).collect()
}

fn wrong(kind: u32, words: &[u32]) -> Vec<Vec<u32>> {
    match (kind, answer(kind)) {
        (_, Some((at, count))) => of_query(words, at, count),
        (20, _) => of_draft(words),
        (21, _) => of_targets(words),
        _ => vec![another(words, 0)],
    }
}

/// Records that no right one is like: behind the first image that is refused, and the first walk that finds nothing.
fn strange(kind: u32, number: u32) -> Vec<(u32, Vec<u32>)> {
    let nothing = |asked: &[u32], answer: usize| asked.iter().copied().chain([18]).chain(vec![0; answer]).collect();
    match (kind, number) {
        (1, 1) => vec![(9, vec![]), (10, nothing(&[0], 10))],
        (19, 18) => vec![(19, [0, 0, 18, 0, 9].into_iter().chain([0; 28]).collect())],
        _ => vec![],
    }
}

/// What tells which wrong copies a record has: its kind, and the number of its answer.
fn sort_of(kind: u32, words: &[u32]) -> (u32, u32) {
    match (kind, answer(kind)) {
        (_, Some((at, _))) => (kind, words[at]),
        (20, _) => (kind, words[1]),
        // of a resolved draft, whether a word was set
        (21, _) => (kind, words[1] + u32::from(set_words(words).next().is_some())),
        _ => (kind, u32::from(words[0] != 0)),
    }
}

/// A file's words with wrong records among the right ones, and how many there are.
pub fn among(right: &[u32]) -> (Vec<u32>, u32) {
    let (mut words, mut count) = (right[..3].to_vec(), 0);
    let mut seen = HashSet::new();
    let mut at = 3;
    while at < right.len() {
        let (kind, length) = (right[at], right[at + 1] as usize);
        let record = &right[at + 2..][..length];
        words.extend(&right[at..at + 2 + length]);
        let sort = sort_of(kind, record);
        if seen.insert(sort) {
            let copies = wrong(kind, record).into_iter().map(|wrong| (kind, wrong));
            for (kind, wrong) in copies.chain(strange(kind, sort.1)) {
                words.extend([kind, wrong.len() as u32]);
                words.extend(wrong);
                count += 1;
            }
        }
        at += 2 + length;
    }
    words[2] += count;
    (words, count)
}
