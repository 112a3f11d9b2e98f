//! The sections of an image, as its header bounds them.

use super::kinds::kind_of;
use super::place::{Broken, Part, Place};

pub const NONE: u32 = u32::MAX;
pub const HEADER: usize = 88;

#[derive(Clone, Copy, Debug, PartialEq, Eq)]
pub enum Section {
    Nodes,
    Children,
    Named,
    Definitions,
    Items,
    Index,
    Payload,
    Strings,
}

use Section::*;

impl Section {
    pub const ALL: [Section; 8] = [Nodes, Children, Named, Definitions, Items, Index, Payload, Strings];

    pub fn name(self) -> &'static str {
        match self {
            Nodes => "nodes",
            Children => "children",
            Named => "named children",
            Definitions => "list definitions",
            Items => "definition items",
            Index => "path index",
            Payload => "list payload",
            Strings => "strings",
        }
    }

    pub fn entry_name(self) -> &'static str {
        match self {
            Nodes => "node",
            Definitions => "definition",
            Items => "item",
            Payload | Strings => "byte",
            Children | Named | Index => "entry",
        }
    }

    /// Bytes an entry.
    pub fn entry_size(self) -> usize {
        match self {
            Nodes => 40,
            Children => 4,
            Definitions => 16,
            Named | Items | Index => 12,
            Payload | Strings => 1,
        }
    }

    /// Where the header says its offset; its count is the next word.
    pub fn offset_at(self) -> usize {
        20 + 8 * self as usize
    }

    pub fn count_at(self) -> usize {
        24 + 8 * self as usize
    }
}

/// The word at a byte; the caller knows that it is inside.
pub fn word_at(bytes: &[u8], at: usize) -> u32 {
    u32::from_le_bytes([bytes[at], bytes[at + 1], bytes[at + 2], bytes[at + 3]])
}

/// A word as a reader wants it: NONE has a name.
pub fn shown(word: u32) -> String {
    if word == NONE { "NONE".to_owned() } else { word.to_string() }
}

/// Bytes whose header passed rows 1 to 5, so that every entry of every section is inside.
pub struct Image<'a> {
    pub bytes: &'a [u8],
}

/// Words of a node before its fields.
pub const PARENT: usize = 0;
pub const PLACE: usize = 1;
pub const TAG: usize = 2;
pub const F: usize = 3;

impl<'a> Image<'a> {
    pub fn start(&self, section: Section) -> usize {
        word_at(self.bytes, section.offset_at()) as usize
    }

    pub fn count(&self, section: Section) -> usize {
        word_at(self.bytes, section.count_at()) as usize
    }

    /// The byte at which word k of an entry stands.
    pub fn at(&self, section: Section, entry: usize, k: usize) -> usize {
        self.start(section) + entry * section.entry_size() + 4 * k
    }

    pub fn word(&self, section: Section, entry: usize, k: usize) -> u32 {
        word_at(self.bytes, self.at(section, entry, k))
    }

    /// Field k of a node.
    pub fn field(&self, node: usize, k: usize) -> u32 {
        self.word(Nodes, node, F + k)
    }

    pub fn tag(&self, node: usize) -> u32 {
        self.word(Nodes, node, TAG)
    }

    pub fn is_container(&self, node: usize) -> bool {
        self.tag(node) == 1
    }

    /// The node's number, if it is one.
    pub fn inside(&self, node: u32) -> Option<usize> {
        (node != NONE && (node as usize) < self.count(Nodes)).then_some(node as usize)
    }

    /// A broken rule that stands at word k of an entry.
    pub fn broken(&self, number: u32, rule: &'static str, at: Word<'_>, because: String) -> Broken {
        let Word { section, entry, k, field } = at;
        let kind = if section == Nodes { kind_of(self.tag(entry)).map(|kind| kind.name) } else { None };
        let place = Place {
            part: Part::Section(section),
            entry: Some(entry),
            kind,
            field: field.to_owned(),
            byte: self.at(section, entry, k),
        };
        Broken { number, rule, place, because }
    }

    /// The text, or why there is none: present, inside the strings, UTF-8.
    pub fn text(&self, offset: u32, length: u32) -> Result<&'a str, String> {
        if offset == NONE || length == NONE {
            return Err(format!("offset {}, length {}: the text is missing", shown(offset), shown(length)));
        }
        let (from, to) = (offset as usize, offset as usize + length as usize);
        let (start, count) = (self.start(Strings), self.count(Strings));
        if to > count {
            return Err(format!("offset {offset}, length {length}: past the strings, which have {count} bytes"));
        }
        std::str::from_utf8(&self.bytes[start + from..start + to]).map_err(|error| {
            let byte = start + from + error.valid_up_to();
            format!("offset {offset}, length {length}: not UTF-8 at byte {byte} of the image")
        })
    }

    /// The same of a text that may be absent.
    pub fn optional_text(&self, offset: u32, length: u32) -> Result<Option<&'a str>, String> {
        if offset == NONE && length == NONE { Ok(None) } else { self.text(offset, length).map(Some) }
    }
}

/// Word k of an entry, by the name of its field.
#[derive(Clone, Copy)]
pub struct Word<'a> {
    pub section: Section,
    pub entry: usize,
    pub k: usize,
    pub field: &'a str,
}

impl<'a> Word<'a> {
    pub fn new(section: Section, entry: usize, k: usize, field: &'a str) -> Self {
        Word { section, entry, k, field }
    }
}
