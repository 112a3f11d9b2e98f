//! A node's view as an enum, made of the ten words that the library writes.

use crate::NONE;
use crate::names::{CommandType, Op, kind, kind_name};

/// A node: parent, index among its parent's ordered children, kind.
///
/// `T` is a text and `L` a list value: `&str` and [`ListView`](crate::ListView) of an [`Image`](crate::Image), places of
/// [`raw::Queries`](crate::raw::Queries), of a [`Sleeper`](crate::Sleeper) what they are asked for by.
#[derive(Clone, Copy, Debug, PartialEq)]
pub struct NodeViewOf<T, L> {
    /// Absent of the root alone.
    pub parent: Option<u32>,
    /// Of a container that is only a named child it says nothing.
    pub child_index: Option<u32>,
    pub kind: NodeKindOf<T, L>,
}

/// The kind of a node, with its fields.
#[derive(Clone, Copy, Debug, PartialEq)]
pub enum NodeKindOf<T, L> {
    Container {
        count_flags: i32,
        name: Option<T>,
    },
    ChoicePoint {
        flags: i32,
        target: Option<u32>,
    },
    ControlCommand(CommandType),
    Divert {
        path: Option<T>,
        target: Option<u32>,
        variable_name: Option<T>,
        external_args: u32,
        conditional: bool,
        external: bool,
        pushes_to_stack: bool,
        stack_push_type: PushPopType,
    },
    Glue,
    NativeFunction(Op),
    Tag(T),
    Value(ValueOf<T, L>),
    VariableAssignment {
        name: T,
        global: bool,
        new_declaration: bool,
    },
    VariableReference {
        name: T,
        count_target: Option<u32>,
    },
    Void,
}

impl<T, L> NodeKindOf<T, L> {
    /// Its number, the tag of an image: a constant of [`kind`].
    pub const fn number(&self) -> u32 {
        match self {
            NodeKindOf::Container { .. } => kind::CONTAINER,
            NodeKindOf::ChoicePoint { .. } => kind::CHOICE,
            NodeKindOf::ControlCommand(_) => kind::COMMAND,
            NodeKindOf::Divert { .. } => kind::DIVERT,
            NodeKindOf::Glue => kind::GLUE,
            NodeKindOf::NativeFunction(_) => kind::OPERATOR,
            NodeKindOf::Tag(_) => kind::TAG,
            NodeKindOf::Value(ValueOf::Bool(_)) => kind::BOOL,
            NodeKindOf::Value(ValueOf::Int(_)) => kind::INT,
            NodeKindOf::Value(ValueOf::Float(_)) => kind::FLOAT,
            NodeKindOf::Value(ValueOf::String(_)) => kind::STRING,
            NodeKindOf::Value(ValueOf::List(_)) => kind::LIST,
            NodeKindOf::Value(ValueOf::DivertTarget(_)) => kind::DIVERT_TARGET,
            NodeKindOf::Value(ValueOf::VariablePointer { .. }) => kind::POINTER,
            NodeKindOf::VariableAssignment { .. } => kind::ASSIGNMENT,
            NodeKindOf::VariableReference { .. } => kind::REFERENCE,
            NodeKindOf::Void => kind::VOID,
        }
    }

    /// Its name: `container`, `divert target`.
    pub const fn name(&self) -> &'static str {
        kind_name(self.number()).unwrap()
    }
}

/// A value.
#[derive(Clone, Copy, Debug, PartialEq)]
pub enum ValueOf<T, L> {
    Bool(bool),
    Int(i32),
    /// All 32 bits of the image's word are kept, of a NaN too: `to_bits` gives them back.
    Float(f32),
    String(T),
    List(L),
    /// The text of its path.
    DivertTarget(T),
    VariablePointer {
        name: T,
        context_index: i32,
    },
}

/// What a divert pushes.
#[derive(Clone, Copy, Debug, PartialEq, Eq, Hash)]
pub enum PushPopType {
    Tunnel,
    Function,
    FunctionEvaluationFromGame,
}

impl PushPopType {
    /// By its number in the flags of a divert.
    #[inline]
    pub(crate) fn from_number(number: u32) -> Option<Self> {
        match number {
            0 => Some(PushPopType::Tunnel),
            1 => Some(PushPopType::Function),
            2 => Some(PushPopType::FunctionEvaluationFromGame),
            _ => None,
        }
    }
}

/// As many words the library writes: parent, place, kind, text and length, variable and length, target, value, flags.
pub(crate) const WORDS: usize = 10;

/// What texts and list values are handed back as, by the two words of each, which are a place or, of a
/// [`Sleeper`](crate::Sleeper), none; a list also by its node.
pub(crate) trait Parts {
    type Text;
    type List;
    fn text(&self, offset: u32, length: u32) -> Self::Text;
    fn list(&self, node: u32, offset: u32, length: u32) -> Option<Self::List>;
}

#[inline]
pub(crate) fn optional(word: u32) -> Option<u32> {
    if word == NONE { None } else { Some(word) }
}

#[inline]
fn optional_text<P: Parts>(parts: &P, offset: u32, length: u32) -> Option<P::Text> {
    if offset == NONE { None } else { Some(parts.text(offset, length)) }
}

/// The view that ten words of the library say; nothing for words that it does not write. Each case makes the whole view, so
/// that its fields go straight to their places.
#[inline]
pub(crate) fn view_of<P: Parts>(node: u32, words: &[u32; WORDS], parts: &P) -> Option<NodeViewOf<P::Text, P::List>> {
    let [parent, place, tag, offset, length, variable, variable_length, target, value, flags] = *words;
    let view = |kind| Some(NodeViewOf { parent: optional(parent), child_index: optional(place), kind });
    let text = || parts.text(offset, length);
    match tag {
        kind::CONTAINER => {
            view(NodeKindOf::Container { count_flags: flags as i32, name: optional_text(parts, offset, length) })
        }
        kind::CHOICE => view(NodeKindOf::ChoicePoint { flags: flags as i32, target: optional(target) }),
        kind::COMMAND => view(NodeKindOf::ControlCommand(CommandType::from_number(value)?)),
        kind::DIVERT => view(NodeKindOf::Divert {
            path: optional_text(parts, offset, length),
            target: optional(target),
            variable_name: optional_text(parts, variable, variable_length),
            external_args: value,
            conditional: flags & 1 != 0,
            external: flags & 2 != 0,
            pushes_to_stack: flags & 4 != 0,
            stack_push_type: PushPopType::from_number(flags >> 3)?,
        }),
        kind::GLUE => view(NodeKindOf::Glue),
        kind::OPERATOR => view(NodeKindOf::NativeFunction(Op::from_number(value)?)),
        kind::TAG => view(NodeKindOf::Tag(text())),
        kind::BOOL => view(NodeKindOf::Value(ValueOf::Bool(value != 0))),
        kind::INT => view(NodeKindOf::Value(ValueOf::Int(value as i32))),
        kind::FLOAT => view(NodeKindOf::Value(ValueOf::Float(f32::from_bits(value)))),
        kind::STRING => view(NodeKindOf::Value(ValueOf::String(text()))),
        kind::LIST => view(NodeKindOf::Value(ValueOf::List(parts.list(node, offset, length)?))),
        kind::DIVERT_TARGET => view(NodeKindOf::Value(ValueOf::DivertTarget(text()))),
        kind::POINTER => {
            view(NodeKindOf::Value(ValueOf::VariablePointer { name: text(), context_index: value as i32 }))
        }
        kind::ASSIGNMENT => view(NodeKindOf::VariableAssignment {
            name: text(),
            global: flags & 1 != 0,
            new_declaration: flags & 2 != 0,
        }),
        kind::REFERENCE => view(NodeKindOf::VariableReference { name: text(), count_target: optional(target) }),
        kind::VOID => view(NodeKindOf::Void),
        _ => None,
    }
}
