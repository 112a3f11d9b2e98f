//! Numbers of refusals, and their words.

use core::fmt;

/// The number of the first rule broken: a row of the table in docs/FORMAT.md.
///
/// ```
/// use story_image::{Image, Refusal};
///
/// let refusal = Image::load(b"no image", &mut []).unwrap_err();
/// assert_eq!(refusal, Refusal::BAD_HEADER);
/// assert_eq!(refusal.number(), 1);
/// assert_eq!(refusal.to_string(), "refused with 1: fewer than 88 bytes, or no BLINKIMG in front");
/// ```
#[derive(Clone, Copy, Debug, PartialEq, Eq, Hash, PartialOrd, Ord)]
pub struct Refusal(pub u32);

/// Name and words of each number, from 1 on.
macro_rules! refusals {
    ($($number:literal $name:ident $words:literal)*) => {
        impl Refusal {
            $(#[doc = concat!($words, ".")] pub const $name: Refusal = Refusal($number);)*
        }

        const WORDS: &[&str] = &[$($words),*];
    };
}

refusals! {
    1 BAD_HEADER "fewer than 88 bytes, or no BLINKIMG in front"
    2 BAD_VERSION "the format version is not 2"
    3 BAD_INK_VERSION "the ink version is not 18 to 21"
    4 BAD_LENGTH "the header's total length is not the number of bytes"
    5 BAD_SECTIONS "a section does not begin where the one before ends, runs past the end, leaves bytes over, or there is no node"
    6 BAD_CHECKSUM "the checksum is wrong"
    7 TOO_FEW_WORDS "too few work words are lent"
    8 BAD_ROOT "node 0 is not a container without parent and place"
    9 BAD_NODE "a node number is outside, or not a container where one is due, or a node is its own parent"
    10 BAD_TEXT "a text of a node, a list value, the path index or a definition is missing, outside the strings or not UTF-8"
    11 BAD_RANGE "a range, a start or a list's length is wrong"
    12 BAD_TAG "unknown tag, flag, command or operator"
    13 LEFT_OVER "children, named entries or payload are left over, or the path index has not as many entries as there are containers"
    14 BAD_CHILD "a child does not name its parent and place, or a named entry's text, order or parent is wrong"
    15 UNREACHED "a node is not reached from node 0"
    16 BAD_INDEX "the path index is out of order, a text is not its container's path, or a container below the root has neither name nor place"
    17 BAD_DEFINITION "definitions or items are out of order, an item's text is bad, or items are left over"
    18 NOT_FOUND "a query finds nothing: no such node, child, name, step or item; or a node cannot have the target"
    19 BAD_DRAFT "a draft's tables are broken, or the list of paths beside it"
    20 DRAFT_UNREACHED "a draft has a node that is not reached"
    21 DRAFT_SHAPE "a draft's root, parents, tree or order of definitions is wrong"
    22 DRAFT_PATHS "two containers of a draft have one path, or one has neither name nor place"
    23 NO_ROOM "the output is too short, or the image would have more than 4294967295 bytes"
    24 TOO_FEW_SLOTS "fewer words are lent than a slot for each number takes: twelve"
    25 NO_TARGET "no node is at the path of a node of the draft"
    26 NO_CONTAINER "the node at a path is no container where one is due"
    27 BAD_SUMMARY "a summary of targets has fewer words than there are nodes, or a word of it cannot take the step"
}

impl Refusal {
    /// The row of the table.
    pub const fn number(self) -> u32 {
        self.0
    }

    /// The row's words; empty for a number that is no row.
    pub fn words(self) -> &'static str {
        let row = (self.0 as usize).checked_sub(1);
        row.and_then(|row| WORDS.get(row)).copied().unwrap_or("")
    }

    /// What a call returned: nothing for 0.
    pub(crate) fn of(number: u32) -> Result<(), Refusal> {
        if number == 0 { Ok(()) } else { Err(Refusal(number)) }
    }
}

impl fmt::Display for Refusal {
    fn fmt(&self, f: &mut fmt::Formatter<'_>) -> fmt::Result {
        write!(f, "refused with {}: {}", self.0, self.words())
    }
}

impl core::error::Error for Refusal {}
