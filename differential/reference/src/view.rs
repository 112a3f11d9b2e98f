//! Loading and reading, in plain types: a text is its place in the strings.

use crate::image::ImageView;
use crate::path::{Component, Path};
use crate::push_pop::PushPopType;
use crate::story_content::{ContainerId, ListView, NodeId, NodeKindView, PathView, StaticStoryView, ValueView};
use crate::value_type::ValueType;

/// Offset and length in the strings, or in the payload for a list.
pub type Place = (u32, u32);

#[derive(Clone, Debug, PartialEq)]
pub struct NodeView {
    pub parent: Option<u32>,
    pub place: Option<u32>,
    pub kind: Kind,
}

#[derive(Clone, Debug, PartialEq)]
pub enum Kind {
    Container {
        flags: i32,
        name: Option<Place>,
    },
    Choice {
        flags: i32,
        target: Option<u32>,
    },
    Command(u32),
    Divert {
        path: Option<Place>,
        target: Option<u32>,
        variable: Option<Place>,
        arguments: u32,
        conditional: bool,
        external: bool,
        pushes: bool,
        push_type: u32,
    },
    Glue,
    Operator(u32),
    Tag(Place),
    Bool(bool),
    Int(i32),
    /// The 32 bits.
    Float(u32),
    String(Place),
    List(Place),
    DivertTarget(Place),
    Pointer {
        name: Place,
        context: i32,
    },
    Assignment {
        name: Place,
        global: bool,
        new_declaration: bool,
    },
    Reference {
        name: Place,
        target: Option<u32>,
    },
    Void,
}

#[derive(Clone, Debug, PartialEq)]
pub struct Named {
    pub name: Place,
    pub node: u32,
}

#[derive(Clone, Debug, PartialEq)]
pub struct ListEntry {
    pub origin: Option<String>,
    pub name: String,
    pub value: i32,
}

#[derive(Clone, Debug, PartialEq)]
pub struct ListEntries {
    pub items: Vec<ListEntry>,
    pub origins: Vec<String>,
}

/// A component of a path.
#[derive(Clone, Debug, PartialEq)]
pub enum Step {
    Parent,
    Index(u32),
    Name(String),
}

/// An accepted image.
pub struct Image<'a> {
    bytes: &'a [u8],
    view: ImageView,
}

/// The image, or the reason string with which it is refused.
pub fn load(bytes: &[u8]) -> Result<Image<'_>, String> {
    // SAFETY: the view stays inside `Image`, which lives no longer than the bytes and gives out no reference.
    let lasting: &'static [u8] = unsafe { std::mem::transmute(bytes) };
    match ImageView::new_validated(lasting) {
        Ok(view) => Ok(Image { bytes, view }),
        Err(error) => Err(error.get_message()),
    }
}

impl Image<'_> {
    pub fn ink_version(&self) -> i32 {
        self.view.ink_version
    }

    pub fn node_count(&self) -> usize {
        self.view.node_count()
    }

    fn section(&self, index: usize) -> (usize, usize) {
        let word = |at: usize| u32::from_le_bytes(self.bytes[at..at + 4].try_into().unwrap()) as usize;
        (word(20 + 8 * index), word(24 + 8 * index))
    }

    fn place_in(&self, section: usize, part: &[u8]) -> Place {
        let start = self.bytes.as_ptr() as usize + self.section(section).0;
        ((part.as_ptr() as usize - start) as u32, part.len() as u32)
    }

    fn text(&self, text: &str) -> Place {
        self.place_in(7, text.as_bytes())
    }

    fn path(&self, path: PathView<'_>) -> Place {
        match path {
            PathView::Image(text) => self.text(text),
            PathView::Arena(_) => unreachable!(),
        }
    }

    pub fn node_view(&self, id: u32) -> Option<NodeView> {
        let node = self.view.node_view(NodeId(id))?;
        let container = |id: Option<ContainerId>| id.map(|id| id.node().0);
        let kind = match node.kind {
            NodeKindView::Container { count_flags, name } => {
                Kind::Container { flags: count_flags, name: name.map(|name| self.text(name)) }
            }
            NodeKindView::ChoicePoint { flags, target } => Kind::Choice { flags, target: container(target) },
            NodeKindView::ControlCommand(command) => Kind::Command(command as u32),
            NodeKindView::Divert {
                path,
                target,
                variable_name,
                external_args,
                conditional,
                external,
                pushes_to_stack,
                stack_push_type,
            } => Kind::Divert {
                path: path.map(|path| self.path(path)),
                target: target.map(|id| id.0),
                variable: variable_name.map(|name| self.text(name)),
                arguments: external_args as u32,
                conditional,
                external,
                pushes: pushes_to_stack,
                push_type: match stack_push_type {
                    PushPopType::Tunnel => 0,
                    PushPopType::Function => 1,
                    PushPopType::FunctionEvaluationFromGame => 2,
                },
            },
            NodeKindView::Glue => Kind::Glue,
            NodeKindView::NativeFunction(op) => Kind::Operator(op as u32),
            NodeKindView::Tag(text) => Kind::Tag(self.text(text)),
            NodeKindView::Value(value) => self.value(value),
            NodeKindView::VariableAssignment { name, global, new_declaration } => {
                Kind::Assignment { name: self.text(name), global, new_declaration }
            }
            NodeKindView::VariableReference { name, count_target } => {
                Kind::Reference { name: self.text(name), target: container(count_target) }
            }
            NodeKindView::Void => Kind::Void,
        };
        Some(NodeView { parent: node.parent.map(|id| id.0), place: node.child_index, kind })
    }

    fn value(&self, value: ValueView<'_>) -> Kind {
        match value {
            ValueView::Bool(value) => Kind::Bool(value),
            ValueView::Int(value) => Kind::Int(value),
            ValueView::Float(value) => Kind::Float(value.to_bits()),
            ValueView::String(text) => Kind::String(self.text(text)),
            ValueView::List(ListView::Image { payload, .. }) => Kind::List(self.place_in(6, payload)),
            ValueView::List(ListView::Arena(_)) => unreachable!(),
            ValueView::DivertTarget(path) => Kind::DivertTarget(self.path(path)),
            ValueView::VariablePointer { name, context_index } => {
                Kind::Pointer { name: self.text(name), context: context_index }
            }
        }
    }

    /// The entries of a list value.
    pub fn list_entries(&self, id: u32) -> Option<ListEntries> {
        let NodeKindView::Value(value @ ValueView::List(_)) = self.view.node_view(NodeId(id))?.kind else {
            return None;
        };
        let ValueType::List(list) = value.to_runtime() else {
            return None;
        };
        let entry = |(item, value): (&crate::ink_list_item::InkListItem, &i32)| ListEntry {
            origin: item.get_origin_name().cloned(),
            name: item.get_item_name().to_owned(),
            value: *value,
        };
        Some(ListEntries { items: list.items.iter().map(entry).collect(), origins: list.get_origin_names() })
    }

    pub fn child_count(&self, id: u32) -> Option<usize> {
        self.view.child_count(NodeId(id))
    }

    pub fn child_at(&self, id: u32, index: usize) -> Option<u32> {
        self.view.child_at(NodeId(id), index).map(|id| id.0)
    }

    pub fn named_child_count(&self, id: u32) -> Option<usize> {
        self.view.named_child_count(NodeId(id))
    }

    pub fn named_child_at(&self, id: u32, index: usize) -> Option<Named> {
        let entry = self.view.named_child_at(NodeId(id), index)?;
        Some(Named { name: self.text(entry.name), node: entry.node.0 })
    }

    pub fn find_named_child(&self, id: u32, name: &str) -> Option<u32> {
        self.view.find_named_child(NodeId(id), name).map(|id| id.0)
    }

    /// Origin, item and value.
    pub fn list_item(&self, name: &str) -> Option<(String, String, i32)> {
        let (item, value) = self.view.list_item(name)?;
        Some((item.get_origin_name()?.clone(), item.get_item_name().to_owned(), value))
    }

    pub fn definition_count(&self) -> usize {
        self.view.list_definition_count()
    }

    /// Name, and how many items.
    pub fn definition(&self, index: usize) -> Option<(Place, usize)> {
        let name = self.view.list_definition_name(index)?;
        Some((self.text(name), self.view.list_definition_item_count(index)?))
    }

    pub fn definition_item(&self, index: usize, item: usize) -> Option<(Place, i32)> {
        let (name, value) = self.view.list_definition_item_at(index, item)?;
        Some((self.text(name), value))
    }

    pub fn resolve_path(&self, origin: u32, relative: bool, steps: &[Step]) -> Option<u32> {
        self.walk(origin, &Walk::new(relative, steps))
    }

    /// The published query alone, for measuring.
    pub fn walk(&self, origin: u32, walk: &Walk) -> Option<u32> {
        self.view.resolve_path(NodeId(origin), &walk.0).map(|id| id.0)
    }

    /// The published query alone, for measuring.
    pub fn has_view(&self, id: u32) -> bool {
        std::hint::black_box(self.view.node_view(NodeId(id))).is_some()
    }

    /// The steps over the parents of published views up to node 0, for measuring.
    pub fn steps_to_root(&self, id: u32) -> Option<u32> {
        let (mut at, mut steps) = (id, 0);
        while at != 0 {
            at = self.view.node_view(NodeId(at))?.parent?.0;
            steps += 1;
        }
        Some(steps)
    }

    /// How many targets of published views name each node, for measuring. The node of a divert-target value, which they
    /// do not show, is read from the bytes.
    pub fn count_targets(&self, counts: &mut [u32]) {
        counts.fill(0);
        for (id, record) in (0..).zip(self.bytes[self.section(0).0..].chunks_exact(40)).take(self.node_count()) {
            let target = match self.view.node_view(NodeId(id)).map(|node| node.kind) {
                Some(NodeKindView::ChoicePoint { target, .. }) => target.map(|id| id.node().0),
                Some(NodeKindView::Divert { target, .. }) => target.map(|id| id.0),
                Some(NodeKindView::VariableReference { count_target, .. }) => count_target.map(|id| id.node().0),
                Some(NodeKindView::Value(ValueView::DivertTarget(_))) => {
                    record[20..].first_chunk().map(|word| u32::from_le_bytes(*word))
                }
                _ => None,
            };
            if let Some(count) = target.and_then(|target| counts.get_mut(target as usize)) {
                *count += 1;
            }
        }
    }

    /// The published query alone, for measuring.
    pub fn has_list_item(&self, name: &str) -> bool {
        std::hint::black_box(self.view.list_item(name)).is_some()
    }
}

/// A path, made ready for walks.
pub struct Walk(Path);

impl Walk {
    pub fn new(relative: bool, steps: &[Step]) -> Self {
        let components: Vec<Component> = steps
            .iter()
            .map(|step| match step {
                Step::Parent => Component::to_parent(),
                Step::Index(index) => Component::new_i(*index as usize),
                Step::Name(name) => Component::new(name),
            })
            .collect();
        Walk(Path::new(&components, relative))
    }
}
