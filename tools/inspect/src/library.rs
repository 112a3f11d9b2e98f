//! The proved library, as this program asks it through its wrapper: the one place that does.

mod sleeper;
mod technician;

use story_image::{NodeKindOf, NodeViewOf, PushPopType, Refusal, ValueOf, kind, kind_name, load_words};

pub use sleeper::Sleeper;
pub use technician::{By, Image};

/// What the table of numbers says of a refusal.
pub fn words(number: u32) -> &'static str {
    if number == 0 { "nothing is refused" } else { Refusal(number).words() }
}

/// The proved load: the image, or the number of the first rule broken.
pub fn load(bytes: &[u8]) -> Result<Image<'_>, u32> {
    let loaded = story_image::Image::load(bytes, &mut vec![0; load_words(bytes)]);
    loaded.map(Image::new).map_err(Refusal::number)
}

/// What both readers of an accepted image tell, the technician's and the sleeper's.
pub trait Reader {
    type Text: AsRef<str>;
    fn node_count(&self) -> u32;
    fn node(&self, node: u32) -> Option<NodeOf<Self::Text>>;
    /// The number of parent steps from a node to node 0.
    fn depth(&self, node: u32) -> Option<u32>;
    fn children(&self, node: u32) -> Vec<u32>;
    fn named_children(&self, node: u32) -> Vec<(Self::Text, u32)>;
    fn definitions(&self) -> Vec<DefinitionOf<Self::Text>>;
}

/// As the technician's reader gives them: texts are parts of the image.
pub type Kind<'a> = KindOf<&'a str>;
pub type Divert<'a> = DivertOf<&'a str>;
pub type List<'a> = ListOf<&'a str>;
pub type ListEntry<'a> = ListEntryOf<&'a str>;
pub type Definition<'a> = DefinitionOf<&'a str>;

/// An item of a list value: origin, name, value.
pub type ListEntryOf<T> = (Option<T>, T, i32);

pub struct ListOf<T> {
    pub items: Vec<ListEntryOf<T>>,
    pub origins: Vec<T>,
}

pub struct DefinitionOf<T> {
    pub name: T,
    pub items: Vec<(T, i32)>,
}

pub struct NodeOf<T> {
    pub parent: Option<u32>,
    pub place: Option<u32>,
    pub kind: KindOf<T>,
}

pub enum KindOf<T> {
    Container {
        name: Option<T>,
        flags: i32,
    },
    Choice {
        target: Option<u32>,
        flags: i32,
    },
    Command(&'static str),
    Divert(DivertOf<T>),
    Glue,
    Operator(&'static str),
    Tag(T),
    Bool(bool),
    Int(i32),
    /// Its 32 bits.
    Float(u32),
    String(T),
    List(ListOf<T>),
    DivertTarget(T),
    Pointer {
        name: T,
        context: i32,
    },
    Assignment {
        name: T,
        global: bool,
        new_declaration: bool,
    },
    Reference {
        name: T,
        target: Option<u32>,
    },
    Void,
}

pub struct DivertOf<T> {
    pub path: Option<T>,
    pub target: Option<u32>,
    pub variable: Option<T>,
    pub arguments: u32,
    pub conditional: bool,
    pub external: bool,
    /// What is pushed, if anything.
    pub pushes: Option<&'static str>,
}

impl<T> NodeOf<T> {
    /// Out of the wrapper's view, whose texts and list value these read; nothing where one is not there.
    fn of<S, L>(
        view: NodeViewOf<S, L>,
        text: impl Fn(S) -> Option<T>,
        list: impl FnOnce(L) -> Option<ListOf<T>>,
    ) -> Option<Self> {
        let kind = KindOf::of(view.kind, text, list)?;
        Some(NodeOf { parent: view.parent, place: view.child_index, kind })
    }
}

impl<T> KindOf<T> {
    fn of<S, L>(
        kind: NodeKindOf<S, L>,
        text: impl Fn(S) -> Option<T>,
        list: impl FnOnce(L) -> Option<ListOf<T>>,
    ) -> Option<Self> {
        Some(match kind {
            NodeKindOf::Container { count_flags, name } => {
                KindOf::Container { name: name.and_then(text), flags: count_flags }
            }
            NodeKindOf::ChoicePoint { flags, target } => KindOf::Choice { target, flags },
            NodeKindOf::ControlCommand(command) => KindOf::Command(command.name()),
            NodeKindOf::Divert {
                path,
                target,
                variable_name,
                external_args,
                conditional,
                external,
                pushes_to_stack,
                stack_push_type,
            } => KindOf::Divert(DivertOf {
                path: path.and_then(&text),
                target,
                variable: variable_name.and_then(&text),
                arguments: external_args,
                conditional,
                external,
                pushes: pushes_to_stack.then(|| pushed(stack_push_type)),
            }),
            NodeKindOf::Glue => KindOf::Glue,
            NodeKindOf::NativeFunction(op) => KindOf::Operator(op.name()),
            NodeKindOf::Tag(held) => KindOf::Tag(text(held)?),
            NodeKindOf::Value(value) => KindOf::of_value(value, text, list)?,
            NodeKindOf::VariableAssignment { name, global, new_declaration } => {
                KindOf::Assignment { name: text(name)?, global, new_declaration }
            }
            NodeKindOf::VariableReference { name, count_target } => {
                KindOf::Reference { name: text(name)?, target: count_target }
            }
            NodeKindOf::Void => KindOf::Void,
        })
    }

    fn of_value<S, L>(
        value: ValueOf<S, L>,
        text: impl Fn(S) -> Option<T>,
        list: impl FnOnce(L) -> Option<ListOf<T>>,
    ) -> Option<Self> {
        Some(match value {
            ValueOf::Bool(value) => KindOf::Bool(value),
            ValueOf::Int(value) => KindOf::Int(value),
            ValueOf::Float(value) => KindOf::Float(value.to_bits()),
            ValueOf::String(held) => KindOf::String(text(held)?),
            ValueOf::List(held) => KindOf::List(list(held)?),
            ValueOf::DivertTarget(path) => KindOf::DivertTarget(text(path)?),
            ValueOf::VariablePointer { name, context_index } => {
                KindOf::Pointer { name: text(name)?, context: context_index }
            }
        })
    }

    /// Its name, the wrapper's.
    pub fn name(&self) -> &'static str {
        let number = match self {
            KindOf::Container { .. } => kind::CONTAINER,
            KindOf::Choice { .. } => kind::CHOICE,
            KindOf::Command(_) => kind::COMMAND,
            KindOf::Divert(_) => kind::DIVERT,
            KindOf::Glue => kind::GLUE,
            KindOf::Operator(_) => kind::OPERATOR,
            KindOf::Tag(_) => kind::TAG,
            KindOf::Bool(_) => kind::BOOL,
            KindOf::Int(_) => kind::INT,
            KindOf::Float(_) => kind::FLOAT,
            KindOf::String(_) => kind::STRING,
            KindOf::List(_) => kind::LIST,
            KindOf::DivertTarget(_) => kind::DIVERT_TARGET,
            KindOf::Pointer { .. } => kind::POINTER,
            KindOf::Assignment { .. } => kind::ASSIGNMENT,
            KindOf::Reference { .. } => kind::REFERENCE,
            KindOf::Void => kind::VOID,
        };
        kind_name(number).unwrap_or_default()
    }
}

/// What a divert pushes, in words.
fn pushed(sort: PushPopType) -> &'static str {
    match sort {
        PushPopType::Tunnel => "tunnel",
        PushPopType::Function => "function",
        PushPopType::FunctionEvaluationFromGame => "function evaluation from game",
    }
}
