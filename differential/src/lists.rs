//! Images whose definitions share items: a whole family of small ones, and random ones with many definitions.

use crate::parts::Parts;
use crate::random::Random;
use crate::small;
use crate::stories::edge;
use std::collections::BTreeSet;

/// Three of five names, and of four items any for each.
pub const SHARED: u64 = 10 * 16 * 16 * 16;

/// A member of the family, by its number.
pub fn shared(number: u64) -> Parts {
    const NAMES: [&str; 5] = ["", " ", "a", "a.b", "b"];
    const ITEMS: [&str; 4] = ["", "a", "b.c", "x"];
    let mut pairs = (0..5).flat_map(|i| (i + 1..5).map(move |j| (i, j)));
    let left_out = pairs.nth((number / 4096) as usize).expect("a pair of names");
    let names = (0..5).filter(|name| *name != left_out.0 && *name != left_out.1);
    let mut parts = small::smallest();
    for (k, name) in names.enumerate() {
        let taken = number >> (4 * k);
        let items = (0..4).filter(|item| taken >> item & 1 == 1).map(|item| (ITEMS[item], item as u32));
        define(&mut parts, NAMES[name], items);
    }
    parts
}

/// Up to seventy definitions; some items are in many of them, others in one, and some definitions have none.
pub fn many(random: &mut Random) -> Parts {
    let mut parts = small::smallest();
    for number in 0..1 + random.below(70) {
        let count = if random.once_in(6) { 0 } else { random.below(20) };
        let items: BTreeSet<String> = (0..count).map(|_| any_item(random)).collect();
        define(&mut parts, &format!("d{number:02}"), items.iter().map(|item| (&item[..], edge(random))));
    }
    parts
}

/// The smaller the number, the more often.
fn any_item(random: &mut Random) -> String {
    let end = 1 + random.below(400);
    format!("i{}", random.below(end))
}

/// Adds a definition; names of definitions come in order, and so do its items.
fn define<'a>(parts: &mut Parts, name: &str, items: impl Iterator<Item = (&'a str, u32)>) {
    let (at, length) = put(parts, name);
    let first = parts.items.len();
    for (name, value) in items {
        let (at, length) = put(parts, name);
        parts.items.push([at, length, value]);
    }
    parts.definitions.push([at, length, first as u32, (parts.items.len() - first) as u32]);
}

fn put(parts: &mut Parts, text: &str) -> (u32, u32) {
    let at = parts.strings.len() as u32;
    parts.strings.extend_from_slice(text.as_bytes());
    (at, text.len() as u32)
}
