//! The published Rust in the place of our library, with a mistake planted in it: the comparison must notice.

mod counts;
mod sleeper;

use crate::depths::{Way, by_words};
use crate::library::sleeper::Sleeper;
use crate::library::{Counting, Entry, Found, Library, Looked, PathList, Place, Queries, Targets, View, Writer};
use crate::library::{components, header_view, load_words, section, write_words};
use crate::pages::{Nodes, SLOT, slot_of};
use crate::parts::{ENTRY_SIZES, HEADER, NONE, word_at};
use crate::path_index;
use crate::rows::writer_row;
use crate::searched::{Lists, is_blank, split};
use crate::targets::drafts::path_texts;
use crate::targets::model::Model;
use reference::{Draft, Image, Kind, ListEntries, Named, NodeView, Step, Written};

#[derive(Clone, Copy, Debug, PartialEq)]
pub enum Mistake {
    None,
    Number,
    WorkLeft,
    NoSeven,
    IndexDot,
    IndexDotBelow,
    IndexNone,
    IndexTarget,
    IndexNamed,
    ViewParent,
    PageLastWords,
    PageNone,
    PageNoView,
    PageLater,
    PageFew,
    PageShort,
    SlotEighteen,
    DepthRoot,
    DepthBound,
    DepthCircle,
    ChildCount,
    ChildAt,
    NamedCount,
    NamedAt,
    FindNamed,
    Text,
    ListValue,
    ListOrigin,
    DefinitionCount,
    Definition,
    DefinitionItem,
    DefinitionItemPast,
    FirstListItem,
    SearchCompared,
    SearchOn,
    SearchBlank,
    SearchFew,
    SearchFirstName,
    SearchOutside,
    SearchPlain,
    RelativeSkip,
    AbsoluteOrigin,
    AbsoluteTested,
    WrittenByte,
    PastOutput,
    NoTwentyThree,
    Needed,
    DraftNumber,
    TargetLast,
    TargetEarly,
    TargetIndex,
    TargetKept,
    TargetText,
    TargetSkip,
    TargetAbsolute,
    TargetTwice,
    TargetExternal,
    TargetTested,
    TargetWork,
    TargetEmpty,
    HeaderStrings,
    NoteText,
    NoteLength,
    NotePlace,
    NoteTag,
    NoteCase,
    NoteFour,
    NoteString,
    NoteChild,
    SleeperStrings,
    SleeperRoom,
    SleeperShort,
    CountNamed,
    CountIndex,
    CountField,
    CountText,
    CountNone,
    CountOutside,
    CountAdded,
    CountLater,
    CountFew,
    CountView,
    CountBounds,
    CountBroken,
    SetBroken,
    SetForbidden,
    SetStep,
    SetItself,
    SetDown,
    SetCleared,
    SetText,
    SetChoice,
    SetDivert,
    SetValue,
    SetReference,
}

pub const MISTAKES: [Mistake; 94] = [
    Mistake::Number,
    Mistake::WorkLeft,
    Mistake::NoSeven,
    Mistake::IndexDot,
    Mistake::IndexDotBelow,
    Mistake::IndexNone,
    Mistake::IndexTarget,
    Mistake::IndexNamed,
    Mistake::ViewParent,
    Mistake::PageLastWords,
    Mistake::PageNone,
    Mistake::PageNoView,
    Mistake::PageLater,
    Mistake::PageFew,
    Mistake::PageShort,
    Mistake::SlotEighteen,
    Mistake::DepthRoot,
    Mistake::DepthBound,
    Mistake::DepthCircle,
    Mistake::ChildCount,
    Mistake::ChildAt,
    Mistake::NamedCount,
    Mistake::NamedAt,
    Mistake::FindNamed,
    Mistake::Text,
    Mistake::ListValue,
    Mistake::ListOrigin,
    Mistake::DefinitionCount,
    Mistake::Definition,
    Mistake::DefinitionItem,
    Mistake::DefinitionItemPast,
    Mistake::FirstListItem,
    Mistake::SearchCompared,
    Mistake::SearchOn,
    Mistake::SearchBlank,
    Mistake::SearchFew,
    Mistake::SearchFirstName,
    Mistake::SearchOutside,
    Mistake::SearchPlain,
    Mistake::RelativeSkip,
    Mistake::AbsoluteOrigin,
    Mistake::AbsoluteTested,
    Mistake::WrittenByte,
    Mistake::PastOutput,
    Mistake::NoTwentyThree,
    Mistake::Needed,
    Mistake::DraftNumber,
    Mistake::TargetLast,
    Mistake::TargetEarly,
    Mistake::TargetIndex,
    Mistake::TargetKept,
    Mistake::TargetText,
    Mistake::TargetSkip,
    Mistake::TargetAbsolute,
    Mistake::TargetTwice,
    Mistake::TargetExternal,
    Mistake::TargetTested,
    Mistake::TargetWork,
    Mistake::TargetEmpty,
    Mistake::HeaderStrings,
    Mistake::NoteText,
    Mistake::NoteLength,
    Mistake::NotePlace,
    Mistake::NoteTag,
    Mistake::NoteCase,
    Mistake::NoteFour,
    Mistake::NoteString,
    Mistake::NoteChild,
    Mistake::SleeperStrings,
    Mistake::SleeperRoom,
    Mistake::SleeperShort,
    Mistake::CountNamed,
    Mistake::CountIndex,
    Mistake::CountField,
    Mistake::CountText,
    Mistake::CountNone,
    Mistake::CountOutside,
    Mistake::CountAdded,
    Mistake::CountLater,
    Mistake::CountFew,
    Mistake::CountView,
    Mistake::CountBounds,
    Mistake::CountBroken,
    Mistake::SetBroken,
    Mistake::SetForbidden,
    Mistake::SetStep,
    Mistake::SetItself,
    Mistake::SetDown,
    Mistake::SetCleared,
    Mistake::SetText,
    Mistake::SetChoice,
    Mistake::SetDivert,
    Mistake::SetValue,
    Mistake::SetReference,
];

pub struct Published(pub Mistake);

impl Published {
    fn has(&self, mistake: Mistake) -> bool {
        self.0 == mistake
    }

    /// Whether an index entry is refused. Another rule: a dot fits, or fits further down; place NONE fits, or does
    /// above the target; a named container of place NONE fits nothing.
    fn breaks(&self, entry: &path_index::Entry) -> bool {
        let none = entry.none_target || entry.none_on_way;
        match self.0 {
            Mistake::IndexDot => none,
            Mistake::IndexDotBelow => entry.dotted && entry.depth == 1 || none,
            Mistake::IndexNone => entry.dotted,
            Mistake::IndexTarget => entry.dotted || entry.none_target,
            Mistake::IndexNamed => entry.breaks_rule() || entry.named_target || entry.named_on_way,
            _ => entry.breaks_rule(),
        }
    }

    /// Another item: of definition 0, or of the first definition that bears the origin's name.
    fn mistake_item(&self, lists: &Lists<'_>, name: &[u8], looked: &mut Looked) {
        match (self.0, split(name)) {
            (Mistake::FirstListItem, _) => {
                looked.item = looked.item.map(|found| Found { definition: 0, ..found });
            }
            (Mistake::SearchFirstName, (Some(origin), item)) => {
                looked.item = lists.named(origin).next().and_then(|first| lists.item_in(first, item));
            }
            _ => {}
        }
    }

    /// Another count: definitions whose name was compared, or those behind the origin; all for a blank name; without the
    /// one that answers, without those whose items lie outside, or as if the items rose.
    fn miscount(&self, lists: &Lists<'_>, name: &[u8], looked: &mut Looked) {
        let (all, (origin, _)) = (lists.count(), split(name));
        let at = origin.and_then(|origin| lists.named(origin).next_back()).map(|d| d as u32);
        match (self.0, origin, at) {
            (Mistake::SearchCompared, Some(_), at) => looked.searched = all - at.unwrap_or(0),
            (Mistake::SearchOn, Some(_), Some(at)) => looked.searched = at + 1,
            (Mistake::SearchBlank, ..) if is_blank(name) => looked.searched = all,
            (Mistake::SearchFew, None, _) if looked.item.is_some() => looked.searched -= 1,
            (Mistake::SearchOutside, ..) => looked.searched -= lists.outside(name, looked),
            (Mistake::SearchPlain, ..) => looked.searched = lists.searched(name),
            _ => {}
        }
    }
}

fn image(bytes: &[u8]) -> Option<Image<'_>> {
    reference::load(bytes).ok()
}

/// The place of a text that is known to stand in the strings.
fn place_of(bytes: &[u8], text: &str) -> Place {
    let strings = &bytes[word_at(bytes, 76) as usize..];
    let at =
        if text.is_empty() { Some(0) } else { strings.windows(text.len()).position(|part| part == text.as_bytes()) };
    (at.expect("a stored text") as u32, text.len() as u32)
}

fn entries(bytes: &[u8], list: Place) -> Option<ListEntries> {
    let image = image(bytes)?;
    let holds = |node: &u32| image.node_view(*node).is_some_and(|view| view.kind == Kind::List(list));
    image.list_entries((0..image.node_count() as u32).find(holds)?)
}

impl Library for Published {
    fn answers_all(&self) -> bool {
        false
    }

    fn load(&self, bytes: &[u8], work: &mut [u32]) -> (u32, View) {
        let row = path_index::row_by(bytes, |entry| self.breaks(entry));
        if (1..=6).contains(&row) {
            return (row, [0; 17]);
        }
        let words = load_words(bytes);
        if work.len() < words && !self.has(Mistake::NoSeven) {
            return (7, [0; 17]);
        }
        let zeros = words.min(work.len()) - usize::from(self.has(Mistake::WorkLeft));
        work[..zeros].fill(0);
        (if self.has(Mistake::Number) && row == 14 { 9 } else { row }, header_view(bytes))
    }

    fn queries(&self) -> Option<&dyn Queries> {
        Some(self)
    }

    fn writer(&self) -> Option<&dyn Writer> {
        Some(self)
    }

    fn targets(&self) -> Option<&dyn Targets> {
        Some(self)
    }

    fn counting(&self) -> Option<&dyn Counting> {
        Some(self)
    }

    fn sleeper<'a>(&'a self, bytes: &'a [u8]) -> Option<Box<dyn Sleeper + 'a>> {
        sleeper::reader(self, bytes)
    }

    /// By the words. The mistake: where the strings begin in the place of their length.
    fn header_words(&self, bytes: &[u8]) -> [Option<u32>; 3] {
        let strings = if self.has(Mistake::HeaderStrings) { 76 } else { 80 };
        [16, strings, 84].map(|at| Some(word_at(bytes.get(..HEADER)?, at)))
    }
}

impl Queries for Published {
    fn node_view(&self, bytes: &[u8], _: &View, node: u32) -> Option<NodeView> {
        let mut view = image(bytes)?.node_view(node)?;
        if self.has(Mistake::ViewParent) && view.parent == Some(0) {
            view.parent = None;
        }
        Some(view)
    }

    /// By the image's words, as the published Rust has no such query.
    fn page(&self, bytes: &[u8], view: &[u32], numbers: &[u32], slots: &mut [u32]) -> u32 {
        let few = slots.len() < SLOT * numbers.len();
        let Some(view) = view.first_chunk() else {
            return if few && self.has(Mistake::PageShort) { 24 } else { 18 };
        };
        if few && !self.has(Mistake::PageFew) {
            return 24;
        }
        let nodes = Nodes::new(bytes, view);
        for (number, slot) in numbers.iter().zip(slots.chunks_exact_mut(SLOT)) {
            let number = if self.has(Mistake::PageNone) && *number == NONE { 0 } else { *number };
            let record = nodes.record(number).filter(|record| self.has(Mistake::PageNoView) || nodes.has_view(record));
            let words = if self.has(Mistake::PageLastWords) { SLOT - 2 } else { SLOT };
            slot[..words].copy_from_slice(&slot_of(record)[..words]);
        }
        if self.has(Mistake::PageLater) {
            slots[SLOT * numbers.len()..].fill(0);
        }
        if few { 24 } else { 0 }
    }

    /// In the place of a view's words the node's own: they are asked for by number and by slot, and must be the same.
    fn node_words(&self, bytes: &[u8], view: &[u32], node: u32) -> Option<[u32; 10]> {
        let nodes = Nodes::new(bytes, view.first_chunk()?);
        nodes.record(node).filter(|record| nodes.has_view(record))
    }

    fn slot_words(&self, bytes: &[u8], view: &[u32], slot: &[u32]) -> Option<[u32; 10]> {
        let taken_as_empty = self.has(Mistake::SlotEighteen) && slot[0] == 18;
        let nodes = Nodes::new(bytes, view.first_chunk()?);
        slot.first_chunk().copied().filter(|record| nodes.has_view(record) && !taken_as_empty)
    }

    /// By the parent words, as the published Rust has no such query.
    fn depth(&self, bytes: &[u8], view: &View, node: u32) -> Option<u32> {
        match by_words(bytes, view, node) {
            Way::Root(steps) if self.has(Mistake::DepthBound) && steps > 0 && steps + 1 == view[2] => None,
            Way::Root(steps) => Some(steps + u32::from(self.has(Mistake::DepthRoot))),
            Way::Circle if self.has(Mistake::DepthCircle) => Some(view[2]),
            _ => None,
        }
    }

    /// The mistake: named children are counted too.
    fn child_count(&self, bytes: &[u8], _: &View, node: u32) -> Option<u32> {
        let image = image(bytes)?;
        let named = if self.has(Mistake::ChildCount) { image.named_child_count(node)? } else { 0 };
        image.child_count(node).map(|count| (count + named) as u32)
    }

    fn child_at(&self, bytes: &[u8], _: &View, node: u32, index: u32) -> Option<u32> {
        let index = if self.has(Mistake::ChildAt) { index / 2 } else { index };
        image(bytes)?.child_at(node, index as usize)
    }

    /// The mistake: a node that is no container has 0.
    fn named_child_count(&self, bytes: &[u8], _: &View, node: u32) -> Option<u32> {
        let image = image(bytes)?;
        let none = || image.node_view(node).filter(|_| self.has(Mistake::NamedCount)).map(|_| 0);
        image.named_child_count(node).map(|count| count as u32).or_else(none)
    }

    fn named_child_at(&self, bytes: &[u8], _: &View, node: u32, index: u32) -> Option<Named> {
        let mut entry = image(bytes)?.named_child_at(node, index as usize)?;
        entry.name.1 += u32::from(self.has(Mistake::NamedAt));
        Some(entry)
    }

    fn find_named_child(&self, bytes: &[u8], _: &View, node: u32, name: &[u8]) -> Option<u32> {
        if self.has(Mistake::FindNamed) && name.is_empty() {
            return None;
        }
        image(bytes)?.find_named_child(node, core::str::from_utf8(name).ok()?)
    }

    fn text(&self, _: &[u8], view: &View, text: Place) -> Option<(usize, usize)> {
        let start = if self.has(Mistake::Text) { 0 } else { view[15] as usize };
        Some((start + text.0 as usize, text.1 as usize))
    }

    fn list_entry(&self, bytes: &[u8], _: &View, list: Place, index: u32) -> Option<Entry> {
        let entries = entries(bytes, list)?;
        let entry = entries.items.get(index as usize)?;
        Some(Entry {
            origin: entry.origin.as_deref().map(|origin| place_of(bytes, origin)),
            name: place_of(bytes, &entry.name),
            value: if self.has(Mistake::ListValue) { entry.value.wrapping_neg() } else { entry.value },
        })
    }

    fn list_origin(&self, bytes: &[u8], _: &View, list: Place, index: u32) -> Option<Place> {
        let index = if self.has(Mistake::ListOrigin) { 0 } else { index };
        Some(place_of(bytes, entries(bytes, list)?.origins.get(index as usize)?))
    }

    fn list_counts(&self, bytes: &[u8], _: &View, node: u32) -> Option<[u32; 2]> {
        let entries = image(bytes)?.list_entries(node)?;
        Some([entries.items.len() as u32, entries.origins.len() as u32])
    }

    /// The mistake: definitions without items are not counted.
    fn definition_count(&self, bytes: &[u8], _: &View) -> Option<u32> {
        let image = image(bytes)?;
        let has_items = |index: &usize| image.definition(*index).is_some_and(|(_, items)| items > 0);
        let counted = |index: &usize| !self.has(Mistake::DefinitionCount) || has_items(index);
        Some((0..image.definition_count()).filter(counted).count() as u32)
    }

    fn definition(&self, bytes: &[u8], _: &View, index: u32) -> Option<(Place, u32)> {
        let (name, items) = image(bytes)?.definition(index as usize)?;
        Some((name, items as u32 + u32::from(self.has(Mistake::Definition))))
    }

    /// The mistakes: the item behind the one that is asked for, where there is one; behind the last, the first of the next
    /// definition.
    fn definition_item(&self, bytes: &[u8], _: &View, index: u32, item: u32) -> Option<(Place, i32)> {
        let (image, index, item) = (image(bytes)?, index as usize, item as usize);
        let found = image.definition_item(index, item);
        match self.0 {
            Mistake::DefinitionItem => image.definition_item(index, item + 1).filter(|_| found.is_some()).or(found),
            Mistake::DefinitionItemPast if image.definition(index)?.1 == item => image.definition_item(index + 1, 0),
            _ => found,
        }
    }

    /// By the image's words: the published Rust does not tell it.
    fn first_item(&self, bytes: &[u8], view: &View, index: u32) -> Option<u32> {
        let entry = section(bytes, view, 3).chunks_exact(ENTRY_SIZES[3]).nth(index as usize)?;
        Some(word_at(entry, 8))
    }

    /// On bytes that are refused, by their words.
    fn list_item(&self, bytes: &[u8], view: &View, name: &[u8]) -> Looked {
        let image = image(bytes);
        let lists = match &image {
            Some(image) => Lists::published(image, bytes),
            None => Lists::by_words(bytes, view),
        };
        let published = image.zip(core::str::from_utf8(name).ok()).map(|(image, name)| lists.due(&image, name));
        let mut looked = published.unwrap_or_else(|| lists.looked(name));
        self.mistake_item(&lists, name, &mut looked);
        self.miscount(&lists, name, &mut looked);
        looked
    }

    fn list_item_words(&self, _: &[u8], _: &[u32], _: &[u8], _: &mut [u32]) -> Option<[u32; 3]> {
        unreachable!("the published Rust gives no such words")
    }

    fn resolve_path(&self, bytes: &[u8], _: &View, origin: u32, relative: bool, steps: &[Step]) -> Option<u32> {
        let image = image(bytes)?;
        let container = || matches!(image.node_view(origin).map(|view| view.kind), Some(Kind::Container { .. }));
        if self.has(Mistake::RelativeSkip) && relative && !container() {
            return image.resolve_path(image.node_view(origin)?.parent?, true, steps);
        }
        match self.0 {
            // an absolute walk that begins at its origin, if this is a container; that asks for an origin inside
            Mistake::AbsoluteOrigin => image.resolve_path(origin, relative || container(), steps),
            Mistake::AbsoluteTested if !relative && image.node_view(origin).is_none() => None,
            _ => image.resolve_path(origin, relative, steps),
        }
    }

    fn resolve_components(&self, _: &[u8], _: &View, _: u32, _: bool, _: &[u32], _: &[u8]) -> Option<u32> {
        unreachable!("the published Rust takes no such words")
    }
}

impl Writer for Published {
    fn write(&self, ink: u32, draft: &Draft, work: &mut [u32], output: &mut [u8]) -> (u32, usize) {
        if !(18..=21).contains(&ink) {
            return (3, 0);
        }
        let words = write_words(draft);
        let written = reference::write(ink, draft);
        if matches!(written, Written::NoStory | Written::Panicked) {
            return (19, 0);
        }
        if work.len() < words {
            return (7, 0);
        }
        work[..words].fill(0);
        let number = match written {
            Written::Image(image) if path_index::row(&image) != 0 => 21,
            Written::Image(image) if image.len() > output.len() => {
                let needed = if self.has(Mistake::Needed) { output.len() } else { image.len() };
                return (23 * u32::from(!self.has(Mistake::NoTwentyThree)), needed);
            }
            Written::Image(image) => {
                output[..image.len()].copy_from_slice(&image);
                if self.has(Mistake::WrittenByte) {
                    output[12] ^= 1;
                }
                if self.has(Mistake::PastOutput) && output.len() > image.len() {
                    output[image.len()] = 0;
                }
                return (0, image.len());
            }
            Written::Refused(message) => writer_row(&message).unwrap(),
            _ => 21,
        };
        (if self.has(Mistake::DraftNumber) && number == 20 { 22 } else { number }, 0)
    }
}

impl Targets for Published {
    /// By the words of draft and list, of a draft that passes 19 to 21 but for its targets: the published Rust takes no
    /// list, and is compared with these words.
    fn resolve(&self, ink: u32, draft: &mut Draft, paths: &PathList, work: &mut [u32]) -> u32 {
        if !(18..=21).contains(&ink) {
            return 3;
        }
        let words = write_words(draft);
        let model = Model::new(draft, paths, self.0);
        if model.list_broken() || model.wrong_target() {
            return 19;
        }
        if work.len() < words {
            return 7;
        }
        let (number, nodes) = model.answer();
        if number == 0 || !self.has(Mistake::TargetWork) {
            work[..words].fill(0);
        }
        draft.nodes = nodes;
        number
    }

    fn paths(&self, draft: &Draft) -> PathList {
        let (mut entries, mut steps) = (vec![], vec![]);
        for (node, text) in path_texts(draft) {
            let (relative, mut parsed) = reference::steps_of(text);
            if self.has(Mistake::TargetEmpty) && text.is_empty() {
                parsed.push(Step::Name(String::new()));
            }
            entries.extend([node, u32::from(relative), steps.len() as u32, parsed.len() as u32]);
            steps.extend(parsed);
        }
        let (components, names) = components(&steps);
        PathList { entries, components, names }
    }
}
