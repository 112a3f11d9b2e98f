//! Pages, which the published Rust does not have: their slots against the image's own words. Whether a node has a view
//! is asked of the published Rust on an image that the published Rust accepts. On other bytes and under other views,
//! where it cannot be asked, it is told by docs/FORMAT.md, written out here, and our lone call must tell the same.

use crate::images::MARK;
use crate::library::{Queries, View, section};
use crate::parts::{ENTRY_SIZES, NONE, word_at};
use crate::random::Random;
use crate::tally::Tally;
use crate::texts::{COMMANDS, OPERATORS};
use reference::NodeView;

/// Words of a slot.
pub const SLOT: usize = 12;

/// A number whose node would begin inside, were its place counted in 32 bits.
const WRAPPING: u32 = u32::MAX / 40 + 1;

/// A node's words: parent, place, tag, f0 to f6. They stand in front in its slot.
pub type Record = [u32; 10];

/// The slots that are counted.
pub const NAMES: [&str; 3] = ["page slot", "page slot, refused image", "page slot, other view"];

/// What must come up where pages are asked.
#[derive(Clone, Copy)]
pub enum Case {
    Empty,
    Forty,
    Again,
    Count,
    None,
    Outside,
    Eighteen,
    Later,
    Few,
    Short,
    NoView,
    NotInBytes,
}

/// Each case in words, and whether it can come up on an image that the published Rust accepts.
pub const CASES: [(&str, bool); 12] = [
    ("pages of no number", true),
    ("pages of forty numbers or more", true),
    ("numbers that stand on the page before", true),
    ("numbers that are the node count", true),
    ("numbers that are NONE", true),
    ("numbers outside", true),
    ("slots of nodes whose parent is 18", true),
    ("pages with words after the last slot", true),
    ("24 for a word too few", true),
    ("18 for a short view", true),
    ("numbers inside without a view", false),
    ("pages of nodes that do not lie in the bytes", false),
];

/// What is read of an image for its slots.
pub struct Nodes<'a> {
    nodes: &'a [u8],
    payload: usize,
    strings: &'a [u8],
}

impl<'a> Nodes<'a> {
    /// Of any bytes under any view: a section that does not lie in the bytes is empty.
    pub fn new(bytes: &'a [u8], view: &View) -> Self {
        let [nodes, payload, strings] = [0, 6, 7].map(|k| section(bytes, view, k));
        Nodes { nodes, payload: payload.len(), strings }
    }

    pub fn record(&self, number: u32) -> Option<Record> {
        let start = number as usize * ENTRY_SIZES[0];
        let node = self.nodes.get(start..start + ENTRY_SIZES[0])?;
        Some(std::array::from_fn(|k| word_at(node, 4 * k)))
    }

    /// Whether a node of these words has a view.
    pub fn has_view(&self, record: &Record) -> bool {
        let [_, _, tag, f0, f1, .., f6] = *record;
        let (start, end) = (f0 as usize, f0 as usize + f1 as usize);
        let text = if f0 == NONE || f1 == NONE { None } else { self.strings.get(start..end) };
        let named = |names: &[&str]| text.is_some_and(|text| names.iter().any(|name| name.as_bytes() == text));
        match tag {
            1 | 2 | 5 | 8..=10 | 18 => true,
            3 => named(COMMANDS),
            4 => f6 / 8 <= 2,
            6 => named(OPERATORS),
            7 | 11 | 13 | 14 | 16 | 17 => text.is_some(),
            12 => end <= self.payload,
            _ => false,
        }
    }
}

/// The slot of a node that has a view, and of a number that has none.
pub fn slot_of(record: Option<Record>) -> [u32; SLOT] {
    let mut slot = [0; SLOT];
    match record {
        Some(record) => slot[..record.len()].copy_from_slice(&record),
        None => slot[0] = 18,
    }
    slot
}

/// Up to 45 numbers below the count, some of them again, and numbers that are likely to go wrong.
fn numbers(count: u32, random: &mut Random) -> Vec<u32> {
    let end = *random.pick(&[4, 8, 8, 46]);
    let mut numbers = vec![0; random.below(end)];
    for k in 0..numbers.len() {
        numbers[k] = match random.below(8) {
            0 => *random.pick(&[0, count.wrapping_sub(1), count, count.wrapping_add(1), NONE, WRAPPING]),
            1 | 2 if k > 0 => numbers[random.below(k)],
            _ => random.below(count as usize) as u32,
        };
    }
    numbers
}

/// Of whom a page is asked, or a look-up.
pub struct Asked<'a> {
    /// Of the slots, or the look-ups, that are counted.
    pub name: &'static str,
    pub bytes: &'a [u8],
    pub view: &'a View,
    pub ours: Option<&'a dyn Queries>,
}

/// A page of an image that the published Rust accepts, by its published views. The random numbers are those of a copy,
/// so that the cases of a seed are the same with and without pages.
pub fn accepted(asked: &Asked<'_>, views: &[Option<NodeView>], random: &Random, tally: &mut Tally) {
    let nodes = Nodes::new(asked.bytes, asked.view);
    let has_view = |number: u32, record: &Record| {
        let published = views[number as usize].is_some();
        assert_eq!(published, nodes.has_view(record), "the harness on {record:?}");
        published
    };
    let random = &mut random.clone();
    Page::new(asked, &nodes, has_view, random).ask(asked, true, random, tally);
}

/// A page of bytes that were refused, or under a view that is not theirs.
pub fn strange(asked: &Asked<'_>, random: &Random, tally: &mut Tally) {
    let nodes = Nodes::new(asked.bytes, asked.view);
    let has_view = |_, record: &Record| nodes.has_view(record);
    let random = &mut random.clone();
    Page::new(asked, &nodes, has_view, random).ask(asked, false, random, tally);
}

struct Page {
    numbers: Vec<u32>,
    /// Of each number, where it stands first.
    first: Vec<usize>,
    /// The slots that are due.
    due: Vec<u32>,
    /// Words that are lent past them.
    later: usize,
    met: [u64; CASES.len()],
}

impl Page {
    fn new(asked: &Asked<'_>, nodes: &Nodes<'_>, has_view: impl Fn(u32, &Record) -> bool, random: &mut Random) -> Self {
        let numbers = numbers(asked.view[2], random);
        let mut page = Page {
            first: Vec::with_capacity(numbers.len()),
            due: Vec::with_capacity(SLOT * numbers.len()),
            later: random.below(15),
            met: [0; CASES.len()],
            numbers,
        };
        for k in 0..page.numbers.len() {
            let number = page.numbers[k];
            let record = nodes.record(number);
            let seen = record.filter(|record| has_view(number, record));
            page.due.extend(slot_of(seen));
            page.first.push(page.numbers.iter().position(|other| *other == number).unwrap_or(k));
            page.met(Case::Again, page.first[k] < k);
            page.met(Case::Count, number == asked.view[2]);
            page.met(Case::None, number == NONE);
            page.met(Case::Outside, record.is_none());
            page.met(Case::NoView, record.is_some() && seen.is_none());
            page.met(Case::Eighteen, seen.is_some_and(|record| record[0] == 18));
        }
        page.met(Case::Empty, page.numbers.is_empty());
        page.met(Case::Forty, page.numbers.len() >= 40);
        page.met(Case::Later, page.later > 0);
        page.met(Case::Few, !page.numbers.is_empty());
        page.met(Case::Short, true);
        page.met(Case::NotInBytes, !page.numbers.is_empty() && asked.view[2] > 0 && nodes.nodes.is_empty());
        page
    }

    fn met(&mut self, case: Case, right: bool) {
        self.met[case as usize] += u64::from(right);
    }

    /// Counts what is due, and asks our library.
    fn ask(&self, asked: &Asked<'_>, accepted: bool, random: &mut Random, tally: &mut Tally) {
        let found = self.due.chunks_exact(SLOT).filter(|slot| slot[2] != 0).count() as u64;
        let [all_found, all_nothing] = tally.queries.entry(asked.name).or_default();
        *all_found += found;
        *all_nothing += self.numbers.len() as u64 - found;
        for (all, met) in tally.pages.iter_mut().zip(self.met) {
            all[usize::from(!accepted)] += met;
        }
        if let Some(ours) = asked.ours {
            let mut slots = vec![MARK; self.due.len() + self.later];
            self.refused(asked, ours, &mut slots, random, tally);
            self.written(asked, ours, &mut slots, tally);
            self.views(asked, ours, tally);
        }
    }

    /// 18 under a short view, whatever is lent; 24 with a word too few. Both write nothing.
    fn refused(
        &self,
        asked: &Asked<'_>,
        ours: &dyn Queries,
        slots: &mut [u32],
        random: &mut Random,
        tally: &mut Tally,
    ) {
        let (name, bytes, view) = (asked.name, asked.bytes, asked.view);
        let (short, lent) = (random.below(view.len()), random.below(slots.len() + 1));
        let number = ours.page(bytes, &view[..short], &self.numbers, &mut slots[..lent]);
        let stays = slots.iter().all(|word| *word == MARK);
        tally.check(number == 18 && stays, || format!("{name}: {number} under {short} words of a view"), bytes);
        if let Some(few) = self.due.len().checked_sub(1) {
            let number = ours.page(bytes, view, &self.numbers, &mut slots[..few]);
            let stays = slots.iter().all(|word| *word == MARK);
            tally.check(number == 24 && stays, || format!("{name}: {number} with {few} words"), bytes);
        }
    }

    /// The slots that are due, equal ones for equal numbers, and no word after them.
    fn written(&self, asked: &Asked<'_>, ours: &dyn Queries, slots: &mut [u32], tally: &mut Tally) {
        let (name, bytes) = (asked.name, asked.bytes);
        let number = ours.page(bytes, asked.view, &self.numbers, slots);
        let (written, later) = slots.split_at(self.due.len());
        let stays = later.iter().all(|word| *word == MARK);
        tally.check(number == 0 && stays, || format!("{name}: {number}, words after the last slot {later:x?}"), bytes);
        let due = self.due.chunks_exact(SLOT);
        for (k, (slot, due)) in written.chunks_exact(SLOT).zip(due).enumerate() {
            let number = self.numbers[k];
            tally.check(slot == due, || format!("{name}: {number}, due {due:?}, ours {slot:?}"), bytes);
            if self.first[k] < k {
                let before = &written[SLOT * self.first[k]..][..SLOT];
                tally.check(slot == before, || format!("{name}: {number} twice, {before:?}, {slot:?}"), bytes);
            }
        }
    }

    /// The view of each slot's words is that of the lone call. Nine words have none, nor has a slot under a short view.
    fn views(&self, asked: &Asked<'_>, ours: &dyn Queries, tally: &mut Tally) {
        let (name, bytes, view) = (asked.name, asked.bytes, asked.view);
        for (number, slot) in self.numbers.iter().zip(self.due.chunks_exact(SLOT)) {
            let (of_slot, alone) = (ours.slot_words(bytes, view, slot), ours.node_words(bytes, view, *number));
            let right = of_slot == alone && alone.is_some() == (slot[2] != 0);
            tally.check(right, || format!("{name}: {number}, slot's view {of_slot:?}, alone {alone:?}"), bytes);
        }
        if let Some(slot) = self.due.first_chunk::<SLOT>() {
            let (nine, ten) = (ours.slot_words(bytes, view, &slot[..9]), ours.slot_words(bytes, view, &slot[..10]));
            let short = ours.slot_words(bytes, &view[..16], slot);
            let right = nine.is_none() && short.is_none() && ten.is_some() == (slot[2] != 0);
            tally.check(right, || format!("{name}: nine words {nine:?}, ten {ten:?}, short view {short:?}"), bytes);
        }
    }
}
