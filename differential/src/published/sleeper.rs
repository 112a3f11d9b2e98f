//! The sleeper's reader made of the published Rust: what is due, with a mistake planted in it.

use super::{Mistake, Published};
use crate::library::sleeper::{Answer, Ask, Sleeper, VIEW_WORDS, Which, sleeper_view, text_of};
use crate::library::{Library, load_words};
use crate::names::kind;
use crate::parts::{NONE, word_at};
use crate::sleeper::seen::{self, PREFIX, Rule, Seen};
use crate::technician::{Technician, Theirs};
use reference::{Image, Kind};

/// The mistakes that are planted in it.
const ITS: [Mistake; 12] = [
    Mistake::None,
    Mistake::NoteText,
    Mistake::NoteLength,
    Mistake::NotePlace,
    Mistake::NoteTag,
    Mistake::NoteCase,
    Mistake::NoteFour,
    Mistake::NoteString,
    Mistake::NoteChild,
    Mistake::SleeperStrings,
    Mistake::SleeperRoom,
    Mistake::SleeperShort,
];

/// What is taken for a note: also `Tech:`; all that begins with the first four bytes; a string, too.
fn rule(mistake: Mistake) -> Rule {
    match mistake {
        Mistake::NoteCase => |kind, text| {
            let front = text.get(..PREFIX.len());
            matches!(kind, Kind::Tag(_)) && front.is_some_and(|front| front.eq_ignore_ascii_case(PREFIX.as_bytes()))
        },
        Mistake::NoteFour => |kind, text| matches!(kind, Kind::Tag(_)) && text.starts_with(b"tech"),
        Mistake::NoteString => |kind, text| seen::is_note(kind, text) || is_string(kind, text),
        _ => seen::is_note,
    }
}

fn is_string(kind: &Kind, text: &[u8]) -> bool {
    matches!(kind, Kind::String(_)) && text.starts_with(PREFIX.as_bytes())
}

/// An image that the published Rust accepts.
struct Reader<'a> {
    library: &'a Published,
    bytes: &'a [u8],
    image: Image<'a>,
}

/// The reader, where it is asked about: without a mistake, and with one of its own.
pub fn reader<'a>(library: &'a Published, bytes: &'a [u8]) -> Option<Box<dyn Sleeper + 'a>> {
    if !ITS.contains(&library.0) {
        return None;
    }
    let image = reference::load(bytes).ok()?;
    Some(Box::new(Reader { library, bytes, image }))
}

impl Reader<'_> {
    fn is_short(&self, view: &[u32]) -> bool {
        view.len() < VIEW_WORDS && !self.library.has(Mistake::SleeperShort)
    }

    /// A note's length told; its place lost; a tag still; not counted as a child.
    fn mistaken(&self, seen: &Seen<'_>, ask: &Ask) -> Answer {
        let reader = seen.technician;
        let is_note = |node: u32| reader.node_view(node).is_some_and(|view| seen.hides(&view));
        let mut answer = seen.answer(ask);
        match (self.library.0, ask) {
            (Mistake::NoteLength, Ask::TextLength(which)) => answer = shown(reader).answer(&Ask::TextLength(*which)),
            (Mistake::NotePlace, Ask::NodeView(node)) if is_note(*node) => answer.words[1] = NONE,
            (Mistake::NoteTag, Ask::NodeView(node)) if is_note(*node) => answer.words[2] = kind::TAG,
            (Mistake::NoteChild, Ask::ChildCount(node)) if answer.number == 0 => {
                let children = (0..answer.words[0]).filter_map(|index| reader.child_at(*node, index));
                answer.words[0] = children.filter(|child| !is_note(*child)).count() as u32;
            }
            _ => {}
        }
        answer
    }
}

/// All that the technician sees.
fn shown(technician: &dyn Technician) -> Seen<'_> {
    Seen { technician, is_note: |_, _| false }
}

impl Sleeper for Reader<'_> {
    fn load_words(&self) -> usize {
        load_words(self.bytes)
    }

    /// The mistake: the strings are counted with the payload.
    fn load(&self, work: &mut [u32], view: &mut [u32]) -> u32 {
        let lent = if view.len() < VIEW_WORDS { 0 } else { work.len() };
        let (number, _) = self.library.load(self.bytes, &mut work[..lent]);
        if number == 0 {
            view[..VIEW_WORDS].copy_from_slice(&sleeper_view(self.bytes));
            if self.library.has(Mistake::SleeperStrings) {
                view[VIEW_WORDS - 1] += word_at(self.bytes, 80);
            }
        }
        number
    }

    fn ask(&self, view: &[u32], ask: &Ask, answer: &mut [u32], searched: &mut [u32]) -> u32 {
        if self.is_short(view) {
            return 18;
        }
        let theirs = Theirs::new(&self.image, self.bytes);
        let given = self.mistaken(&Seen { technician: &theirs, is_note: rule(self.library.0) }, ask);
        answer.copy_from_slice(&given.words);
        searched.copy_from_slice(&given.searched);
        given.number
    }

    /// The mistakes: the text of a note; its length written with 23.
    fn text(&self, view: &[u32], which: Which, text: &mut [u8], size: &mut [u32]) -> u32 {
        let theirs = Theirs::new(&self.image, self.bytes);
        let mut seen = Seen { technician: &theirs, is_note: rule(self.library.0) };
        if self.library.has(Mistake::NoteText) && which.kind == text_of::NODE {
            seen = shown(&theirs);
        }
        let Some(found) = seen.text(which).filter(|_| !self.is_short(view)) else {
            return 18;
        };
        let fits = found.len() <= text.len() && !size.is_empty();
        if let Some(size) = size.first_mut().filter(|_| fits || self.library.has(Mistake::SleeperRoom)) {
            *size = found.len() as u32;
        }
        if !fits {
            return 23;
        }
        text[..found.len()].copy_from_slice(&found);
        0
    }
}
