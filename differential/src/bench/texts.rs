//! Texts that row 19 tests, in our call for targets with no path; both sides are ours. The strings are good as a whole,
//! so a text of theirs is tested by its ends; and a block of one-byte and two-byte sequences has a test of its own.

use super::targets::Call;
use super::{Sheet, inputs};
use crate::library::{Library, PathList};
use crate::parts::Parts;
use reference::Draft;

/// Texts that lie over one another: were each read whole, they would be 200 MB.
const TEXTS: u32 = 20_000;

pub fn run(words: &str, sheet: &mut Sheet) {
    let Some(ours) = crate::OURS.and_then(Library::targets) else {
        return;
    };
    let (none, number) = (PathList::default(), 0);
    let inputs = [
        ("20,000 texts over one another", "long texts", ["of 10 bytes", "of 10 kB"], [over(5), over(5_000)]),
        ("one text of 3 MB", "two bytes each", ["three", "two"], [one(1 << 20, "\u{4e00}"), one(3 << 19, "\u{e4}")]),
    ];
    for (input, name, sides, [other, draft]) in &inputs {
        if input.contains(words) {
            println!("{input}");
            sheet.input = input;
            let (other, call) = (Call { draft: other, paths: &none, number }, Call { draft, paths: &none, number });
            sheet.duel(name, *sides, other.by(ours), Some(call.by(ours)));
        }
    }
}

/// Texts of so many characters of two bytes: every other one is all of the strings, the rest leave out a character at
/// both ends.
fn over(characters: u32) -> Draft {
    let (whole, inner) = ((0, 2 * characters), (2, 2 * characters - 4));
    let mut parts = inputs::with_strings(vec![String::new(); TEXTS as usize]);
    parts.strings = "\u{e4}".repeat(characters as usize).into_bytes();
    for (number, node) in parts.nodes.iter_mut().enumerate().skip(1) {
        (node[3], node[4]) = if number % 2 == 0 { whole } else { inner };
    }
    parts.draft()
}

/// A text of one character, so many times.
fn one(times: usize, character: &str) -> Draft {
    let parts: Parts = inputs::with_strings(vec![character.repeat(times)]);
    parts.draft()
}
