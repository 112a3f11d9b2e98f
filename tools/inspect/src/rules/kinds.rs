//! The kinds of nodes by tag, and what stands in the fields of each, in the order in which they are tested.

use story_image::{kind, kind_name};

/// What stands in a field; the number says at which word it begins, counted from f0.
#[derive(Clone, Copy, Debug, PartialEq, Eq)]
pub enum Field {
    Text(usize),
    OptionalText(usize),
    Command(usize),
    Operator(usize),
    Node(usize),
    OptionalNode(usize),
    Container(usize),
    OptionalContainer(usize),
    /// A word at most the second number.
    AtMost(usize, u32),
    /// Start and count of ordered children, of named children; start and length of a list's payload.
    Children,
    Named,
    Payload,
}

use Field::*;

pub struct Kind {
    pub name: &'static str,
    /// Each with its name.
    pub fields: &'static [(&'static str, Field)],
}

/// The kind of a tag. Words that may be anything are not listed.
pub fn kind_of(tag: u32) -> Option<Kind> {
    let fields: &[_] = match tag {
        kind::CONTAINER => &[("name", OptionalText(0)), ("children", Children), ("named children", Named)],
        kind::CHOICE => &[("path", OptionalText(0)), ("target", Container(2))],
        kind::COMMAND => &[("name", Command(0))],
        kind::DIVERT => &[
            ("path", OptionalText(0)),
            ("target", OptionalNode(2)),
            ("variable", OptionalText(3)),
            // below 32, and divided by 8 at most 2
            ("flags", AtMost(6, 23)),
        ],
        kind::OPERATOR => &[("name", Operator(0))],
        kind::TAG | kind::STRING => &[("text", Text(0))],
        kind::BOOL => &[("value", AtMost(0, 1))],
        kind::LIST => &[("payload", Payload)],
        kind::DIVERT_TARGET => &[("text", Text(0)), ("target", Node(2))],
        kind::POINTER => &[("name", Text(0))],
        kind::ASSIGNMENT => &[("name", Text(0)), ("flags", AtMost(2, 3))],
        kind::REFERENCE => &[("name", Text(0)), ("path", OptionalText(2)), ("target", OptionalContainer(4))],
        _ => &[],
    };
    Some(Kind { name: kind_name(tag)?, fields })
}
