//! Where a rule is broken.

use super::sections::Section;
use std::fmt;

/// A part of an image.
#[derive(Clone, Copy, Debug, PartialEq, Eq)]
pub enum Part {
    Header,
    Section(Section),
}

impl Part {
    pub fn name(self) -> &'static str {
        match self {
            Part::Header => "header",
            Part::Section(section) => section.name(),
        }
    }
}

#[derive(Clone, Debug, PartialEq, Eq)]
pub struct Place {
    pub part: Part,
    /// The entry's number in its section; a node's number in section nodes.
    pub entry: Option<usize>,
    /// The node's kind, in section nodes, where its tag has one.
    pub kind: Option<&'static str>,
    pub field: String,
    /// From the front of the image.
    pub byte: usize,
}

impl fmt::Display for Place {
    fn fmt(&self, f: &mut fmt::Formatter<'_>) -> fmt::Result {
        write!(f, "{}", self.part.name())?;
        if let (Part::Section(section), Some(entry)) = (self.part, self.entry) {
            write!(f, ", {} {entry}", section.entry_name())?;
        }
        if let Some(kind) = self.kind {
            write!(f, " ({kind})")?;
        }
        write!(f, ", {}, byte {}", self.field, self.byte)
    }
}

/// A text in quotes, no more than its first characters.
pub fn quoted(text: &str) -> String {
    const MOST: usize = 60;
    match text.char_indices().nth(MOST) {
        None => format!("{text:?}"),
        Some((end, _)) => format!("{:?}.. ({} bytes)", &text[..end], text.len()),
    }
}

/// A broken rule: its number in the table, its name, where it stands, and what is there.
#[derive(Clone, Debug, PartialEq, Eq)]
pub struct Broken {
    pub number: u32,
    pub rule: &'static str,
    pub place: Place,
    pub because: String,
}

impl Broken {
    pub fn in_header(number: u32, rule: &'static str, field: impl Into<String>, byte: usize, because: String) -> Self {
        let place = Place { part: Part::Header, entry: None, kind: None, field: field.into(), byte };
        Broken { number, rule, place, because }
    }
}
