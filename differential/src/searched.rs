//! Look-ups of list items with the number of definitions whose items were searched, which the published Rust does not
//! tell: on an image that the published Rust accepts it is counted in a plain loop over the published definitions and
//! items. On other bytes and under other views, where the published Rust cannot be asked, answer and count are those of
//! docs/FORMAT.md, written out here.

use crate::library::{Found, Looked, Place, View, section};
use crate::pages::Asked;
use crate::parts::{ENTRY_SIZES, word_at};
use crate::random::Random;
use crate::tally::Tally;
use reference::Image;
use std::cmp::Ordering;
use std::ops::Range;

/// The look-ups that are counted.
pub const NAMES: [&str; 3] = ["list item", "list item, refused image", "list item, other view"];

/// What must come up where items are looked up.
#[derive(Clone, Copy)]
pub enum Case {
    Last,
    Between,
    First,
    Nothing,
    Dot,
    DotNothing,
    DotNone,
    Dots,
    Blank,
    Empty,
    Shared,
    OfAnother,
    NoItems,
    Equal,
    Outside,
    Lost,
    Passed,
    NotInBytes,
}

/// Each case in words, and whether it can come up on an image that the published Rust accepts.
pub const CASES: [(&str, bool); 18] = [
    ("the last of several definitions answers, 1", true),
    ("one between answers", true),
    ("the first of several answers, all", true),
    ("none answers, all", true),
    ("with a dot, found, 1", true),
    ("with a dot, the origin does not hold it, 1", true),
    ("with a dot, no such origin, 0", true),
    ("names with several dots", true),
    ("blank names, 0", true),
    ("empty names, 0", true),
    ("items of several definitions", true),
    ("with a dot, the item of another definition", true),
    ("definitions without items, searched", true),
    ("with a dot, several definitions of that name", false),
    ("definitions whose items lie outside, searched", false),
    ("found by a text that lies outside", false),
    ("items that the halving passes by", false),
    ("definitions that do not lie in the bytes", false),
];

/// The place of a text where it lies in the strings.
type Text<'a> = Option<&'a [u8]>;

/// A text that does not lie in the strings is the empty one.
fn shown<'a>(text: Text<'a>) -> &'a [u8] {
    text.unwrap_or(&[])
}

struct Definition<'a> {
    name: Text<'a>,
    /// Where its items stand among all; nothing if they do not lie there.
    items: Option<Range<usize>>,
}

/// Definitions, and the names and values of all items.
pub struct Lists<'a> {
    definitions: Vec<Definition<'a>>,
    items: Vec<(Text<'a>, i32)>,
}

pub fn is_blank(name: &[u8]) -> bool {
    core::str::from_utf8(name).is_ok_and(|name| name.chars().all(char::is_whitespace))
}

/// Characters of White_Space, and some that are none, though they look like it.
const WHITE: [char; 25] = [
    '\t', '\n', '\u{b}', '\u{c}', '\r', ' ', '\u{85}', '\u{a0}', '\u{1680}', '\u{2000}', '\u{2001}', '\u{2002}',
    '\u{2003}', '\u{2004}', '\u{2005}', '\u{2006}', '\u{2007}', '\u{2008}', '\u{2009}', '\u{200a}', '\u{2028}',
    '\u{2029}', '\u{202f}', '\u{205f}', '\u{3000}',
];
const NO_WHITE: [char; 6] = ['\u{1c}', '\u{84}', '\u{180e}', '\u{200b}', '\u{2060}', '\u{feff}'];

/// A name of several characters that is blank, or nearly.
fn blank(random: &mut Random) -> String {
    let mut name: String = (0..2 + random.below(3)).map(|_| *random.pick(&WHITE)).collect();
    if random.once_in(4) {
        name.push(*random.pick(&NO_WHITE));
        name.push(*random.pick(&WHITE));
    }
    name
}

/// What stands before the first dot, if there is one, and the item's name.
pub fn split(name: &[u8]) -> (Option<&[u8]>, &[u8]) {
    match name.iter().position(|byte| *byte == b'.') {
        Some(dot) => (Some(&name[..dot]), &name[dot + 1..]),
        None => (None, name),
    }
}

/// The place of a name among items, halving a range of them.
fn halved(items: &[(Text<'_>, i32)], name: &[u8]) -> Option<usize> {
    let (mut low, mut high) = (0, items.len());
    while low < high {
        let middle = low + (high - low) / 2;
        match shown(items[middle].0).cmp(name) {
            Ordering::Less => low = middle + 1,
            Ordering::Equal => return Some(middle),
            Ordering::Greater => high = middle,
        }
    }
    None
}

impl<'a> Lists<'a> {
    /// As the published Rust tells them.
    pub fn published(image: &Image<'_>, bytes: &'a [u8]) -> Self {
        let strings = &bytes[word_at(bytes, 76) as usize..];
        let text = |(at, length): Place| strings.get(at as usize..at as usize + length as usize);
        let mut lists = Lists { definitions: vec![], items: vec![] };
        for index in 0..image.definition_count() {
            let (name, count) = image.definition(index).expect("a definition");
            let items = (0..count).map(|item| image.definition_item(index, item).expect("an item"));
            let first = lists.items.len();
            lists.items.extend(items.map(|(name, value)| (text(name), value)));
            lists.definitions.push(Definition { name: text(name), items: Some(first..first + count) });
        }
        lists
    }

    /// By the words of any bytes under any view.
    pub fn by_words(bytes: &'a [u8], view: &View) -> Self {
        let [definitions, items, strings] = [3, 4, 7].map(|k| section(bytes, view, k));
        let range = |entry: &[u8], at: usize| {
            let start = word_at(entry, at) as usize;
            start..start + word_at(entry, at + 4) as usize
        };
        let text = |entry: &[u8]| strings.get(range(entry, 0));
        let items: Vec<_> =
            items.chunks_exact(ENTRY_SIZES[4]).map(|entry| (text(entry), word_at(entry, 8) as i32)).collect();
        let inside = |range: &Range<usize>| range.end <= items.len();
        let definitions = definitions
            .chunks_exact(ENTRY_SIZES[3])
            .map(|entry| Definition { name: text(entry), items: Some(range(entry, 8)).filter(inside) })
            .collect();
        Lists { definitions, items }
    }

    pub fn count(&self) -> u32 {
        self.definitions.len() as u32
    }

    pub fn item_count(&self) -> usize {
        self.items.len()
    }

    fn items(&self, definition: &Definition<'_>) -> &[(Text<'a>, i32)] {
        &self.items[definition.items.clone().unwrap_or(0..0)]
    }

    fn holds(&self, definition: &Definition<'_>, item: &[u8]) -> bool {
        self.items(definition).iter().any(|(name, _)| shown(*name) == item)
    }

    /// The numbers of the definitions of a name.
    pub fn named(&self, name: &[u8]) -> impl DoubleEndedIterator<Item = usize> {
        (0..self.definitions.len()).filter(move |d| shown(self.definitions[*d].name) == name)
    }

    /// How many definitions' items are searched: without a dot those from the last down to the one that answers, or all;
    /// with a dot 1 if its origin is a definition, else 0; for an empty or blank name 0.
    pub fn searched(&self, name: &[u8]) -> u32 {
        if is_blank(name) {
            return 0;
        }
        if let (Some(origin), _) = split(name) {
            return u32::from(self.named(origin).next().is_some());
        }
        let mut searched = 0;
        for definition in self.definitions.iter().rev() {
            searched += 1;
            if self.holds(definition, name) {
                break;
            }
        }
        searched
    }

    /// What the published Rust answers, as numbers, and the count.
    pub fn due(&self, image: &Image<'_>, name: &str) -> Looked {
        let item = image.list_item(name).map(|(origin, item, value)| {
            let definition = self.named(origin.as_bytes()).next().expect("its definition");
            let items = self.definitions[definition].items.clone().expect("its items");
            let same = |number: &usize| shown(self.items[*number].0) == item.as_bytes();
            let item = { items }.find(same).expect("its number") as u32;
            Found { definition: definition as u32, item, value }
        });
        Looked { item, searched: self.searched(name.as_bytes()) }
    }

    /// An item of one definition.
    pub fn item_in(&self, definition: usize, item: &[u8]) -> Option<Found> {
        let range = self.definitions[definition].items.clone()?;
        let item = range.start + halved(&self.items[range], item)?;
        Some(Found { definition: definition as u32, item: item as u32, value: self.items[item].1 })
    }

    /// Answer and count on any bytes. Items need not rise, so the halving decides; of equal names the last definition
    /// does.
    pub fn looked(&self, name: &[u8]) -> Looked {
        let mut looked = Looked::default();
        if is_blank(name) {
            return looked;
        }
        let (origin, item) = split(name);
        for (d, definition) in self.definitions.iter().enumerate().rev() {
            if origin.is_some_and(|origin| origin != shown(definition.name)) {
                continue;
            }
            looked.searched += 1;
            looked.item = self.item_in(d, item);
            if origin.is_some() || looked.item.is_some() {
                break;
            }
        }
        looked
    }

    /// Names to ask: such as are likely to go wrong, and those of definitions and items as they stand there, with dots and
    /// without.
    pub fn names(&self, turns: usize, random: &mut Random) -> Vec<Vec<u8>> {
        let fixed = ["", "..", ".x", "x.", "x.low", " . "];
        let mut names: Vec<Vec<u8>> = fixed.iter().map(|name| name.as_bytes().to_vec()).collect();
        names.push(blank(random).into_bytes());
        for _ in 0..if self.definitions.is_empty() { 0 } else { turns } {
            let origin = shown(random.pick(&self.definitions).name);
            let any = |number: usize| self.items.get(number).map_or(&b"low"[..], |(name, _)| shown(*name));
            let (item, other) = (any(random.below(self.items.len())), any(random.below(self.items.len())));
            let parts: [&[&[u8]]; 7] = [
                &[item],
                &[origin, item],
                &[item, other],
                &[origin, b"x", item],
                &[origin, b""],
                &[b"", item],
                &[origin, item, other],
            ];
            names.extend(parts.map(|parts| parts.join(&b'.')));
        }
        names
    }

    /// Counts what is met by a look-up.
    pub fn tell(&self, name: &[u8], looked: &Looked, accepted: bool, tally: &mut Tally) {
        let mut met = |case: Case, right: bool| {
            tally.searches[case as usize][usize::from(!accepted)] += u64::from(right);
        };
        let (origin, item) = split(name);
        let (count, searched, found) = (self.count(), looked.searched, looked.item.is_some());
        let (dot, plain) = (origin.is_some(), origin.is_none() && !is_blank(name));
        met(Case::Last, plain && found && searched == 1 && count > 1);
        met(Case::Between, plain && found && searched > 1 && searched < count);
        met(Case::First, plain && found && searched > 1 && searched == count);
        met(Case::Nothing, plain && !found && searched > 0);
        met(Case::Dot, dot && found && searched == 1);
        met(Case::DotNothing, dot && !found && searched == 1);
        met(Case::DotNone, dot && searched == 0 && count > 0);
        met(Case::Dots, dot && item.contains(&b'.') && count > 0);
        met(Case::Blank, is_blank(name) && !name.is_empty() && count > 0);
        met(Case::Empty, name.is_empty() && count > 0);
        let holders = self.definitions.iter().filter(|definition| self.holds(definition, item)).count();
        met(Case::Shared, plain && found && holders > 1);
        met(Case::OfAnother, dot && !found && searched == 1 && holders > 0);
        met(Case::Equal, origin.is_some_and(|origin| self.named(origin).count() > 1));
        let lost = |found: Found| {
            let definition = &self.definitions[found.definition as usize];
            dot && (definition.name.is_none() || self.items[found.item as usize].0.is_none())
        };
        met(Case::Lost, looked.item.is_some_and(lost));
        let empty = |definition: &Definition<'_>| definition.items.as_ref().is_some_and(Range::is_empty);
        met(Case::NoItems, self.those_searched(name, looked).any(empty));
        met(Case::Outside, self.outside(name, looked) > 0);
        let holds = |definition: &Definition<'_>| self.holds(definition, item);
        met(Case::Passed, !found && self.those_searched(name, looked).any(holds));
    }

    /// The definitions whose items were searched.
    fn those_searched(&self, name: &[u8], looked: &Looked) -> impl Iterator<Item = &Definition<'a>> {
        let origin = split(name).0;
        let right = move |definition: &&Definition<'_>| origin.is_none_or(|origin| origin == shown(definition.name));
        self.definitions.iter().rev().filter(right).take(looked.searched as usize)
    }

    /// How many of them have items that do not lie among all.
    pub fn outside(&self, name: &[u8], looked: &Looked) -> u32 {
        self.those_searched(name, looked).filter(|definition| definition.items.is_none()).count() as u32
    }
}

/// Look-ups on bytes that were refused, or under a view that is not theirs.
pub fn strange(asked: &Asked<'_>, random: &Random, tally: &mut Tally) {
    let lists = Lists::by_words(asked.bytes, asked.view);
    let lost = asked.view[8] > 0 && lists.count() == 0;
    tally.searches[Case::NotInBytes as usize][1] += u64::from(lost);
    for name in lists.names(1, &mut random.clone()) {
        let due = lists.looked(&name);
        tally.query(asked.name, &due.item);
        lists.tell(&name, &due, false, tally);
        if let Some(library) = asked.ours {
            let ours = library.list_item(asked.bytes, asked.view, &name);
            tally.check(ours == due, || format!("{} {name:?}: due {due:?}, ours {ours:?}", asked.name), asked.bytes);
        }
    }
}
