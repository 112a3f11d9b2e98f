//! A draft made node by node in lent slices.

use crate::draft::Draft;
use crate::names::{CommandType, Op, kind};
use crate::node::PushPopType;
use crate::targets::OpenDraft;
use crate::{NODE_WORDS, NONE};
use core::fmt;

/// Lent room for a draft. What a draft does not need is left empty.
#[derive(Debug, Default)]
pub struct Room<'a> {
    /// Ten words a node.
    pub nodes: &'a mut [u32],
    /// A word an ordered child.
    pub children: &'a mut [u32],
    /// Three words a named entry.
    pub named: &'a mut [u32],
    /// Four words a definition.
    pub definitions: &'a mut [u32],
    /// Three words an item of a definition.
    pub items: &'a mut [u32],
    /// Of a list value 8 bytes, 20 an item, 8 an origin.
    pub payload: &'a mut [u8],
    pub strings: &'a mut [u8],
}

/// What a node of a draft is. Targets are numbers of nodes. Those that come later are set by
/// [`set_target`](DraftBuilder::set_target); or they are [`NONE`], and found from the paths by
/// [`OpenDraft::resolve_static_targets`].
#[derive(Clone, Copy, Debug, PartialEq)]
pub enum NodeKind<'a> {
    Container {
        name: Option<&'a str>,
        count_flags: i32,
    },
    ChoicePoint {
        path: Option<&'a str>,
        target: u32,
        flags: i32,
    },
    ControlCommand(CommandType),
    Divert {
        path: Option<&'a str>,
        target: Option<u32>,
        variable_name: Option<&'a str>,
        external_args: u32,
        conditional: bool,
        external: bool,
        pushes_to_stack: bool,
        stack_push_type: PushPopType,
    },
    Glue,
    NativeFunction(Op),
    Tag(&'a str),
    Bool(bool),
    Int(i32),
    Float(f32),
    String(&'a str),
    List {
        items: &'a [ListEntry<'a>],
        origins: &'a [&'a str],
    },
    DivertTarget {
        path: &'a str,
        target: u32,
    },
    VariablePointer {
        name: &'a str,
        context_index: i32,
    },
    VariableAssignment {
        name: &'a str,
        global: bool,
        new_declaration: bool,
    },
    VariableReference {
        name: &'a str,
        count_path: Option<&'a str>,
        count_target: Option<u32>,
    },
    Void,
}

/// An item of a list value of a draft.
pub type ListEntry<'a> = crate::lists::ListEntryView<'a>;

/// Why something was not added to a draft.
#[derive(Clone, Copy, Debug, PartialEq, Eq)]
pub enum BuildError {
    /// The lent room for this section is used up.
    Full(&'static str),
    /// The node is no container, or not there.
    NoContainer(u32),
    /// The node has no target, or is not there.
    NoTarget(u32),
}

impl fmt::Display for BuildError {
    fn fmt(&self, f: &mut fmt::Formatter<'_>) -> fmt::Result {
        match self {
            BuildError::Full(section) => write!(f, "no more room for {section}"),
            BuildError::NoContainer(node) => write!(f, "node {node} is no container"),
            BuildError::NoTarget(node) => write!(f, "node {node} has no target"),
        }
    }
}

impl core::error::Error for BuildError {}

/// Makes a draft: places, starts and counts of children, order of named entries and the layout of lists are right by
/// themselves.
///
/// ```
/// use story_image::{DraftBuilder, Image, NodeKind, Room, Step, load_words};
///
/// let room = Room {
///     nodes: &mut [0; 40],
///     children: &mut [0; 4],
///     named: &mut [0; 12],
///     strings: &mut [0; 100],
///     ..Room::default()
/// };
/// let mut draft = DraftBuilder::new(room)?;
/// draft.child(DraftBuilder::ROOT, NodeKind::String("Good evening."))?;
/// let end = draft.named_container(DraftBuilder::ROOT, "end")?;
/// draft.child(end, NodeKind::String("Sleep well."))?;
/// let draft = draft.finish();
///
/// let (mut work, mut output) = (vec![0; draft.work_words()], vec![0; 1000]);
/// let bytes = draft.write(21, &mut work, &mut output)?;
/// let image = Image::load(bytes, &mut vec![0; load_words(bytes)])?;
/// assert_eq!(image.node_count(), 4);
/// assert_eq!(image.resolve_path(0, false, &[Step::Name("end")]), image.find_named_child(0, "end"));
/// # Ok::<(), Box<dyn std::error::Error>>(())
/// ```
#[derive(Debug)]
pub struct DraftBuilder<'a> {
    room: Room<'a>,
    /// Words and bytes in use.
    nodes: usize,
    children: usize,
    named: usize,
    definitions: usize,
    items: usize,
    payload: usize,
    strings: usize,
}

const PARENT: usize = 0;
const PLACE: usize = 1;
const TAG: usize = 2;
/// Where the fields begin.
const F: usize = 3;

/// Puts elements behind those in use; nothing changes where they do not fit.
pub(crate) fn put<T: Copy>(
    room: &mut [T],
    used: &mut usize,
    more: &[T],
    section: &'static str,
) -> Result<(), BuildError> {
    let end = room.get_mut(*used..).and_then(|rest| rest.get_mut(..more.len())).ok_or(BuildError::Full(section))?;
    end.copy_from_slice(more);
    *used += more.len();
    Ok(())
}

fn text_at(strings: &[u8], offset: u32, length: u32) -> &[u8] {
    &strings[offset as usize..][..length as usize]
}

impl<'a> DraftBuilder<'a> {
    /// The number of the root.
    pub const ROOT: u32 = 0;

    /// A draft with its root alone, a container without name and flags.
    pub fn new(room: Room<'a>) -> Result<Self, BuildError> {
        let mut draft =
            DraftBuilder { room, nodes: 0, children: 0, named: 0, definitions: 0, items: 0, payload: 0, strings: 0 };
        draft.node(NONE, NONE, NodeKind::Container { name: None, count_flags: 0 })?;
        Ok(draft)
    }

    /// Adds an ordered child behind those that the container has; gives its number.
    pub fn child(&mut self, parent: u32, kind: NodeKind<'_>) -> Result<u32, BuildError> {
        let container = self.container(parent)?;
        if self.children == self.room.children.len() {
            return Err(BuildError::Full("children"));
        }
        let place = self.room.nodes[container + F + 4];
        let node = self.node(parent, place, kind)?;
        self.children += 1;
        self.room.nodes[container + F + 4] += 1;
        Ok(node)
    }

    /// Adds a container that is a named child, and no ordered one; gives its number.
    pub fn named_container(&mut self, parent: u32, name: &str) -> Result<u32, BuildError> {
        self.container(parent)?;
        if self.room.named.len() - self.named < 3 {
            return Err(BuildError::Full("named entries"));
        }
        let before = (self.nodes, self.strings);
        let node = self.node(parent, NONE, NodeKind::Container { name: Some(name), count_flags: 0 })?;
        // not half of it
        self.name(node, name).inspect_err(|_| (self.nodes, self.strings) = before)?;
        Ok(node)
    }

    /// Names a container, an ordered child perhaps, among the named children of its parent.
    pub fn name(&mut self, node: u32, name: &str) -> Result<(), BuildError> {
        let at = self.container(node)?;
        let parent = self.container(self.room.nodes[at + PARENT])?;
        if self.room.named.len() - self.named < 3 {
            return Err(BuildError::Full("named entries"));
        }
        let [offset, length] = self.text(name)?;
        put(self.room.named, &mut self.named, &[offset, length, node], "named entries")?;
        self.room.nodes[parent + F + 6] += 1;
        Ok(())
    }

    /// Sets the flags of a container.
    pub fn set_count_flags(&mut self, node: u32, count_flags: i32) -> Result<(), BuildError> {
        let at = self.container(node)?;
        self.room.nodes[at + F + 2] = count_flags as u32;
        Ok(())
    }

    /// Sets the target of a choice, a divert, a divert-target value or a reference.
    pub fn set_target(&mut self, node: u32, target: u32) -> Result<(), BuildError> {
        let at = self.place_of(node).ok_or(BuildError::NoTarget(node))?;
        let field = match self.room.nodes[at + TAG] {
            kind::CHOICE | kind::DIVERT | kind::DIVERT_TARGET => 2,
            kind::REFERENCE => 4,
            _ => return Err(BuildError::NoTarget(node)),
        };
        self.room.nodes[at + F + field] = target;
        Ok(())
    }

    /// Adds a list definition. Definitions are added in the order of their names; the items may come in any order.
    pub fn definition(&mut self, name: &str, items: &[(&str, i32)]) -> Result<(), BuildError> {
        let before = (self.items, self.strings);
        self.definition_words(name, items).inspect_err(|_| (self.items, self.strings) = before)?;
        let strings = &*self.room.strings;
        let (added, _) = self.room.items[before.0..self.items].as_chunks_mut::<3>();
        added.sort_unstable_by_key(|[offset, length, _]| text_at(strings, *offset, *length));
        Ok(())
    }

    /// The draft: children and named entries stand in the order of their containers.
    pub fn finish(self) -> Draft<'a> {
        self.finish_open().into_draft()
    }

    /// The same draft, to find targets from its path texts before it is written: each text is in the strings, and
    /// [`OpenDraft::paths`] parses them; that is done by this wrapper and is not proved.
    ///
    /// ```
    /// use story_image::{DraftBuilder, Image, NONE, NodeKind, NodeKindView, Room, load_words};
    ///
    /// let room = Room {
    ///     nodes: &mut [0; 30],
    ///     children: &mut [0; 1],
    ///     named: &mut [0; 3],
    ///     strings: &mut [0; 100],
    ///     ..Room::default()
    /// };
    /// let mut draft = DraftBuilder::new(room)?;
    /// let choice = NodeKind::ChoicePoint { path: Some(".^.night"), target: NONE, flags: 0 };
    /// draft.child(DraftBuilder::ROOT, choice)?;
    /// draft.named_container(DraftBuilder::ROOT, "night")?;
    /// let mut draft = draft.finish_open();
    ///
    /// let (mut words, mut work) = (vec![0; draft.path_words()], vec![0; draft.work_words()]);
    /// let paths = draft.paths(&mut words)?;
    /// let draft = draft.resolve_static_targets(21, &paths, &mut work)?;
    ///
    /// let mut output = vec![0; draft.image_length(21, &mut work)?];
    /// let bytes = draft.write(21, &mut work, &mut output)?;
    /// let image = Image::load(bytes, &mut vec![0; load_words(bytes)])?;
    /// let night = image.find_named_child(0, "night");
    /// assert_eq!(image.node_view(1).unwrap().kind, NodeKindView::ChoicePoint { target: night, flags: 0 });
    /// # Ok::<(), Box<dyn std::error::Error>>(())
    /// ```
    pub fn finish_open(self) -> OpenDraft<'a> {
        let Room { nodes, children, named, definitions, items, payload, strings } = self.room;
        let (records, _) = nodes[..self.nodes].as_chunks_mut::<NODE_WORDS>();
        let (mut child_start, mut named_start) = (0, 0);
        for record in records.iter_mut().filter(|record| record[TAG] == kind::CONTAINER) {
            (record[F + 3], record[F + 5]) = (child_start, named_start);
            (child_start, named_start) = (child_start + record[F + 4], named_start + record[F + 6]);
        }
        for (node, record) in records.iter().enumerate().skip(1) {
            if record[PLACE] != NONE {
                let start = records[record[PARENT] as usize][F + 3];
                children[(start + record[PLACE]) as usize] = node as u32;
            }
        }
        let (entries, _) = named[..self.named].as_chunks_mut::<3>();
        entries.sort_unstable_by_key(|[offset, length, node]| {
            (records[*node as usize][PARENT], text_at(strings, *offset, *length))
        });
        OpenDraft {
            nodes: &mut nodes[..self.nodes],
            children: &children[..self.children],
            named: &named[..self.named],
            definitions: &definitions[..self.definitions],
            items: &items[..self.items],
            payload: &payload[..self.payload],
            strings: &strings[..self.strings],
        }
    }

    /// The items of a definition, then the definition.
    fn definition_words(&mut self, name: &str, items: &[(&str, i32)]) -> Result<(), BuildError> {
        let first = self.items / 3;
        let [offset, length] = self.text(name)?;
        for (name, value) in items {
            let [offset, length] = self.text(name)?;
            put(self.room.items, &mut self.items, &[offset, length, *value as u32], "items")?;
        }
        let words = [offset, length, first as u32, items.len() as u32];
        put(self.room.definitions, &mut self.definitions, &words, "definitions")
    }

    /// Where the words of a node begin.
    fn place_of(&self, node: u32) -> Option<usize> {
        let at = (node as usize).checked_mul(NODE_WORDS)?;
        (at < self.nodes).then_some(at)
    }

    fn container(&self, node: u32) -> Result<usize, BuildError> {
        let at = self.place_of(node).filter(|at| self.room.nodes[at + TAG] == kind::CONTAINER);
        at.ok_or(BuildError::NoContainer(node))
    }

    fn text(&mut self, text: &str) -> Result<[u32; 2], BuildError> {
        // a word says where it lies, and how long it is
        let full = BuildError::Full("strings");
        let (start, length) = (u32::try_from(self.strings), u32::try_from(text.len()));
        put(self.room.strings, &mut self.strings, text.as_bytes(), "strings")?;
        Ok([start.map_err(|_| full)?, length.map_err(|_| full)?])
    }

    fn optional(&mut self, text: Option<&str>) -> Result<[u32; 2], BuildError> {
        text.map_or(Ok([NONE; 2]), |text| self.text(text))
    }

    /// A text, and the field behind it.
    fn text_and(&mut self, tag: u32, text: &str, f2: u32) -> Result<(u32, [u32; 7]), BuildError> {
        let [f0, f1] = self.text(text)?;
        Ok((tag, [f0, f1, f2, NONE, NONE, NONE, NONE]))
    }

    /// Adds a node; gives its number. Where there is no room, nothing is added.
    fn node(&mut self, parent: u32, place: u32, kind: NodeKind<'_>) -> Result<u32, BuildError> {
        if self.room.nodes.len() - self.nodes < NODE_WORDS {
            return Err(BuildError::Full("nodes"));
        }
        let before = (self.payload, self.strings);
        let (tag, [f0, f1, f2, f3, f4, f5, f6]) =
            self.fields(kind).inspect_err(|_| (self.payload, self.strings) = before)?;
        let node = (self.nodes / NODE_WORDS) as u32;
        put(self.room.nodes, &mut self.nodes, &[parent, place, tag, f0, f1, f2, f3, f4, f5, f6], "nodes")?;
        Ok(node)
    }

    /// The tag and the fields of a node.
    fn fields(&mut self, kind: NodeKind<'_>) -> Result<(u32, [u32; 7]), BuildError> {
        let one = |tag: u32, word: u32| Ok((tag, [word, NONE, NONE, NONE, NONE, NONE, NONE]));
        match kind {
            NodeKind::Container { name, count_flags } => {
                let [f0, f1] = self.optional(name)?;
                Ok((kind::CONTAINER, [f0, f1, count_flags as u32, 0, 0, 0, 0]))
            }
            NodeKind::ChoicePoint { path, target, flags } => {
                let [f0, f1] = self.optional(path)?;
                Ok((kind::CHOICE, [f0, f1, target, flags as u32, NONE, NONE, NONE]))
            }
            NodeKind::ControlCommand(command) => self.text_and(kind::COMMAND, command.name(), NONE),
            NodeKind::Divert {
                path,
                target,
                variable_name,
                external_args,
                conditional,
                external,
                pushes_to_stack,
                stack_push_type,
            } => {
                let [f0, f1] = self.optional(path)?;
                let [f3, f4] = self.optional(variable_name)?;
                let flags = u32::from(conditional)
                    | u32::from(external) << 1
                    | u32::from(pushes_to_stack) << 2
                    | (stack_push_type as u32) << 3;
                Ok((kind::DIVERT, [f0, f1, target.unwrap_or(NONE), f3, f4, external_args, flags]))
            }
            NodeKind::Glue => one(kind::GLUE, NONE),
            NodeKind::NativeFunction(op) => self.text_and(kind::OPERATOR, op.name(), NONE),
            NodeKind::Tag(text) => self.text_and(kind::TAG, text, NONE),
            NodeKind::Bool(value) => one(kind::BOOL, u32::from(value)),
            NodeKind::Int(value) => one(kind::INT, value as u32),
            NodeKind::Float(value) => one(kind::FLOAT, value.to_bits()),
            NodeKind::String(text) => self.text_and(kind::STRING, text, NONE),
            NodeKind::List { items, origins } => self.list(items, origins),
            NodeKind::DivertTarget { path, target } => self.text_and(kind::DIVERT_TARGET, path, target),
            NodeKind::VariablePointer { name, context_index } => {
                self.text_and(kind::POINTER, name, context_index as u32)
            }
            NodeKind::VariableAssignment { name, global, new_declaration } => {
                self.text_and(kind::ASSIGNMENT, name, u32::from(global) | u32::from(new_declaration) << 1)
            }
            NodeKind::VariableReference { name, count_path, count_target } => {
                let [f0, f1] = self.text(name)?;
                let [f2, f3] = self.optional(count_path)?;
                Ok((kind::REFERENCE, [f0, f1, f2, f3, count_target.unwrap_or(NONE), NONE, NONE]))
            }
            NodeKind::Void => one(kind::VOID, NONE),
        }
    }

    fn list(&mut self, items: &[ListEntry<'_>], origins: &[&str]) -> Result<(u32, [u32; 7]), BuildError> {
        let start = self.payload;
        if self.room.payload.len() > NONE as usize {
            return Err(BuildError::Full("payload"));
        }
        self.words(&[items.len() as u32, origins.len() as u32])?;
        for item in items {
            let [origin, origin_length] = self.optional(item.origin)?;
            let [name, name_length] = self.text(item.name)?;
            self.words(&[origin, origin_length, name, name_length, item.value as u32])?;
        }
        for origin in origins {
            let text = self.text(origin)?;
            self.words(&text)?;
        }
        let length = (self.payload - start) as u32;
        Ok((kind::LIST, [start as u32, length, NONE, NONE, NONE, NONE, NONE]))
    }

    /// Words at the end of the payload.
    fn words(&mut self, words: &[u32]) -> Result<(), BuildError> {
        words.iter().try_for_each(|word| put(self.room.payload, &mut self.payload, &word.to_le_bytes(), "payload"))
    }
}
