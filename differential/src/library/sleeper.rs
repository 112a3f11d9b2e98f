//! What the sleeper's reader is asked.

use crate::asked::Walk;
use crate::images::MARK;
use crate::parts::word_at;

/// Words of the sleeper's view: ink version, then how many entries sections 0 to 6 have.
pub const VIEW_WORDS: usize = 8;

/// The most words that an answer has, and one that stays.
const ROOM: usize = 9;

/// Which text: its kind, and two numbers.
#[derive(Clone, Copy, Debug, PartialEq)]
pub struct Which {
    pub kind: u32,
    pub a: u32,
    pub b: u32,
}

/// Kinds of texts.
pub mod text_of {
    pub const NODE: u32 = 0;
    pub const VARIABLE: u32 = 1;
    pub const NAMED_CHILD: u32 = 2;
    pub const DEFINITION: u32 = 3;
    pub const DEFINITION_ITEM: u32 = 4;
    pub const ITEM: u32 = 5;
    pub const ENTRY_NAME: u32 = 6;
    pub const ENTRY_ORIGIN: u32 = 7;
    pub const ORIGIN: u32 = 8;
    /// How many there are.
    pub const KINDS: u32 = 9;
}

/// A call of the sleeper's reader, but for the load and the copy of a text.
#[derive(Clone, Debug)]
pub enum Ask {
    NodeView(u32),
    TextLength(Which),
    Depth(u32),
    ChildCount(u32),
    ChildAt(u32, u32),
    NamedChildCount(u32),
    NamedChildAt(u32, u32),
    FindNamedChild(u32, Vec<u8>),
    ListItemCount(u32),
    ListOriginCount(u32),
    ListEntry(u32, u32),
    DefinitionCount,
    Definition(u32),
    FirstItem(u32),
    DefinitionItem(u32, u32),
    FindListItem(Vec<u8>),
    ResolvePath(Walk),
}

impl Ask {
    /// As it is counted.
    pub fn name(&self) -> &'static str {
        match self {
            Ask::NodeView(_) => "sleeper's node view",
            Ask::TextLength(_) => "sleeper's text length",
            Ask::Depth(_) => "sleeper's depth",
            Ask::ChildCount(_) => "sleeper's child count",
            Ask::ChildAt(..) => "sleeper's child",
            Ask::NamedChildCount(_) => "sleeper's named count",
            Ask::NamedChildAt(..) => "sleeper's named child",
            Ask::FindNamedChild(..) => "sleeper's find named child",
            Ask::ListItemCount(_) => "sleeper's list item count",
            Ask::ListOriginCount(_) => "sleeper's list origin count",
            Ask::ListEntry(..) => "sleeper's list entry",
            Ask::DefinitionCount => "sleeper's definition count",
            Ask::Definition(_) => "sleeper's definition",
            Ask::FirstItem(_) => "sleeper's first item",
            Ask::DefinitionItem(..) => "sleeper's definition item",
            Ask::FindListItem(_) => "sleeper's list item",
            Ask::ResolvePath(_) => "sleeper's walk",
        }
    }
}

/// What a call gives: its number, and the words that were lent, which are marked before the call.
#[derive(Clone, Copy, Debug, PartialEq)]
pub struct Answer {
    pub number: u32,
    pub words: [u32; ROOM],
    /// For the number of definitions searched.
    pub searched: [u32; 2],
}

impl Answer {
    /// 0 and the words, or 18 and none.
    pub fn of<const N: usize>(words: Option<[u32; N]>) -> Self {
        let mut answer = Answer { number: 18, words: [MARK; ROOM], searched: [MARK; 2] };
        if let Some(words) = words {
            answer.number = 0;
            answer.words[..N].copy_from_slice(&words);
        }
        answer
    }

    /// What a call makes of marked words.
    pub fn to(call: impl FnOnce(&mut [u32], &mut [u32]) -> u32) -> Self {
        let mut answer = Answer { number: 0, words: [MARK; ROOM], searched: [MARK; 2] };
        answer.number = call(&mut answer.words, &mut answer.searched);
        answer
    }
}

/// The sleeper's reader on some bytes, under a view that may be too short.
pub trait Sleeper {
    fn load_words(&self) -> usize;
    /// The number; the view is written with 0.
    fn load(&self, work: &mut [u32], view: &mut [u32]) -> u32;
    /// The number; the words of the answer are written with 0, the number of definitions searched with 18 too.
    fn ask(&self, view: &[u32], ask: &Ask, answer: &mut [u32], searched: &mut [u32]) -> u32;
    /// The number; the bytes of a text and its length are written with 0.
    fn text(&self, view: &[u32], which: Which, text: &mut [u8], size: &mut [u32]) -> u32;
}

/// The view that a header makes.
pub fn sleeper_view(bytes: &[u8]) -> [u32; VIEW_WORDS] {
    std::array::from_fn(|k| word_at(bytes, if k == 0 { 12 } else { 16 + 8 * k }))
}
