//! Writing: a draft's words and bytes are turned into the published story data and handed to the published writer.

use crate::control_command::ControlCommand;
use crate::image::compile_json_to_image;
use crate::ink_list_item::InkListItem;
use crate::json::story::read_stream::put_down;
use crate::native_function_call::NativeFunctionCall;
use crate::path::Component;
use crate::push_pop::PushPopType;
use crate::story_content::{
    ChoiceRecord, ContainerId, ContainerRecord, DivertRecord, NamedChild, NodeId, NodeKind, NodeRecord, StaticList,
    StaticListDefinition, StaticPath, StaticValue, StoryData, VariableReferenceRecord,
};
use std::cell::Cell;
use std::panic::{self, AssertUnwindSafe};
use std::sync::Once;

const NONE: u32 = u32::MAX;

/// Sections 0 to 4 as words, payload and strings as bytes.
#[derive(Clone, Debug, Default, PartialEq)]
pub struct Draft {
    pub nodes: Vec<u32>,
    pub children: Vec<u32>,
    pub named: Vec<u32>,
    pub definitions: Vec<u32>,
    pub items: Vec<u32>,
    pub payload: Vec<u8>,
    pub strings: Vec<u8>,
}

#[derive(Clone, Debug, PartialEq)]
pub enum Written {
    Image(Vec<u8>),
    Refused(String),
    /// The draft's tables do not make a story.
    NoStory,
    /// The published writer would not end: parents go in a circle.
    RunsOn,
    Panicked,
}

pub fn write(ink_version: u32, draft: &Draft) -> Written {
    let Some(story) = Story::new(draft) else {
        return Written::NoStory;
    };
    if parents_circle(&story.0) {
        return Written::RunsOn;
    }
    write_story(ink_version, story)
}

/// A draft as the published writer takes it.
pub struct Story(pub(crate) StoryData);

impl Story {
    /// Each path text is one component, so that nothing is parsed and printed anew.
    pub fn new(draft: &Draft) -> Option<Self> {
        story_of(draft, &Texts { bytes: &draft.strings, parsed: false }).map(Story)
    }

    /// Path texts are parsed.
    pub fn with_paths(draft: &Draft) -> Option<Self> {
        story_of(draft, &Texts { bytes: &draft.strings, parsed: true }).map(Story)
    }
}

/// The published writer alone; it runs on where parents go in a circle.
pub fn write_story(ink_version: u32, story: Story) -> Written {
    put_down(ink_version as i32, story.0);
    match published(|| compile_json_to_image(std::io::empty())) {
        Some(Ok(image)) => Written::Image(image),
        Some(Err(error)) => Written::Refused(error.get_message()),
        None => Written::Panicked,
    }
}

thread_local! {
    /// Whether this thread is inside published code.
    static INSIDE: Cell<bool> = const { Cell::new(false) };
}

/// Runs published code; none if it panics, and that panic alone is not printed.
fn published<T>(call: impl FnOnce() -> T) -> Option<T> {
    static HOOK: Once = Once::new();
    HOOK.call_once(|| {
        let print = panic::take_hook();
        panic::set_hook(Box::new(move |panic| {
            if !INSIDE.get() {
                print(panic);
            }
        }));
    });
    INSIDE.set(true);
    let answer = panic::catch_unwind(AssertUnwindSafe(call)).ok();
    INSIDE.set(false);
    answer
}

/// Whether some node's parents never come to an end.
fn parents_circle(story: &StoryData) -> bool {
    // 0 not looked at, 1 on the present way up, 2 known to end
    let mut state = vec![0_u8; story.nodes.len()];
    for start in 0..story.nodes.len() {
        let mut way = Vec::new();
        let mut at = Some(start);
        while let Some(id) = at.filter(|id| *id < state.len() && state[*id] != 2) {
            if state[id] == 1 {
                return true;
            }
            state[id] = 1;
            way.push(id);
            at = story.nodes[id].parent.map(|parent| parent.index());
        }
        for id in way {
            state[id] = 2;
        }
    }
    false
}

fn optional(word: u32) -> Option<u32> {
    (word != NONE).then_some(word)
}

struct Texts<'a> {
    bytes: &'a [u8],
    /// Paths are parsed.
    parsed: bool,
}

impl Texts<'_> {
    fn text(&self, offset: u32, length: u32) -> Option<String> {
        if offset == NONE || length == NONE {
            return None;
        }
        let start = offset as usize;
        let part = self.bytes.get(start..start + length as usize)?;
        Some(core::str::from_utf8(part).ok()?.to_owned())
    }

    /// Outer none: bad; inner none: absent.
    fn optional(&self, offset: u32, length: u32) -> Option<Option<String>> {
        if offset == NONE && length == NONE { Some(None) } else { self.text(offset, length).map(Some) }
    }

    fn path(&self, offset: u32, length: u32) -> Option<StaticPath> {
        let text = self.text(offset, length)?;
        let whole = || StaticPath { components: vec![Component::new(&text)], relative: false };
        Some(if self.parsed { StaticPath::from_text(&text) } else { whole() })
    }

    fn optional_path(&self, offset: u32, length: u32) -> Option<Option<StaticPath>> {
        if offset == NONE && length == NONE { Some(None) } else { self.path(offset, length).map(Some) }
    }
}

fn story_of(draft: &Draft, texts: &Texts<'_>) -> Option<StoryData> {
    let whole = [(&draft.nodes, 10), (&draft.named, 3), (&draft.definitions, 4), (&draft.items, 3)];
    if whole.iter().any(|(words, size)| words.len() % size != 0) || draft.nodes.is_empty() {
        return None;
    }
    let mut nodes = Vec::with_capacity(draft.nodes.len() / 10);
    for record in draft.nodes.chunks_exact(10) {
        nodes.push(NodeRecord {
            parent: optional(record[0]).map(NodeId),
            child_index: optional(record[1]),
            kind: kind_of(draft, texts, record)?,
        });
    }
    let mut named = Vec::with_capacity(draft.named.len() / 3);
    for entry in draft.named.chunks_exact(3) {
        named.push(NamedChild { name: texts.text(entry[0], entry[1])?, node: NodeId(entry[2]) });
    }
    let mut list_definitions = Vec::new();
    for entry in draft.definitions.chunks_exact(4) {
        let start = entry[2] as usize * 3;
        let words = draft.items.get(start..start + entry[3] as usize * 3)?;
        let mut items = Vec::new();
        for item in words.chunks_exact(3) {
            items.push((texts.text(item[0], item[1])?, item[2] as i32));
        }
        list_definitions.push(StaticListDefinition { name: texts.text(entry[0], entry[1])?, items });
    }
    let children = draft.children.iter().map(|id| NodeId(*id)).collect();
    Some(StoryData { nodes, children, named, list_definitions })
}

fn range(start: u32, count: u32, length: usize) -> Option<core::ops::Range<usize>> {
    let range = start as usize..start as usize + count as usize;
    (range.end <= length).then_some(range)
}

fn kind_of(draft: &Draft, texts: &Texts<'_>, record: &[u32]) -> Option<NodeKind> {
    let f = &record[3..];
    let kind = match record[2] {
        1 => NodeKind::Container(ContainerRecord {
            name: texts.optional(f[0], f[1])?,
            count_flags: f[2] as i32,
            children: range(f[3], f[4], draft.children.len())?,
            named: range(f[5], f[6], draft.named.len() / 3)?,
        }),
        2 => NodeKind::ChoicePoint(ChoiceRecord {
            path: texts.optional_path(f[0], f[1])?,
            target: optional(f[2]).map(|id| ContainerId(NodeId(id))),
            flags: f[3] as i32,
        }),
        3 => NodeKind::ControlCommand(ControlCommand::new_from_name(&texts.text(f[0], f[1])?)?.command_type),
        4 => {
            if f[6] > 23 {
                return None;
            }
            NodeKind::Divert(DivertRecord {
                path: texts.optional_path(f[0], f[1])?,
                target: optional(f[2]).map(NodeId),
                variable_name: texts.optional(f[3], f[4])?,
                external_args: f[5] as usize,
                conditional: f[6] & 1 != 0,
                external: f[6] & 2 != 0,
                pushes_to_stack: f[6] & 4 != 0,
                stack_push_type: PushPopType::from_value(f[6] as usize >> 3).ok()?,
            })
        }
        5 => NodeKind::Glue,
        6 => NodeKind::NativeFunction(NativeFunctionCall::new_from_name(&texts.text(f[0], f[1])?)?.op),
        7 => NodeKind::Tag(texts.text(f[0], f[1])?),
        8 if f[0] <= 1 => NodeKind::Value(StaticValue::Bool(f[0] == 1)),
        9 => NodeKind::Value(StaticValue::Int(f[0] as i32)),
        10 => NodeKind::Value(StaticValue::Float(f32::from_bits(f[0]))),
        11 => NodeKind::Value(StaticValue::String(texts.text(f[0], f[1])?)),
        12 => NodeKind::Value(StaticValue::List(list_of(draft, texts, f[0], f[1])?)),
        13 => NodeKind::Value(StaticValue::DivertTarget {
            path: texts.path(f[0], f[1])?,
            target: optional(f[2]).map(NodeId),
        }),
        14 => {
            NodeKind::Value(StaticValue::VariablePointer { name: texts.text(f[0], f[1])?, context_index: f[2] as i32 })
        }
        16 if f[2] <= 3 => NodeKind::VariableAssignment {
            name: texts.text(f[0], f[1])?,
            global: f[2] & 1 != 0,
            new_declaration: f[2] & 2 != 0,
        },
        17 => NodeKind::VariableReference(VariableReferenceRecord {
            name: texts.text(f[0], f[1])?,
            count_path: texts.optional_path(f[2], f[3])?,
            count_target: optional(f[4]).map(|id| ContainerId(NodeId(id))),
        }),
        18 => NodeKind::Void,
        _ => return None,
    };
    Some(kind)
}

fn list_of(draft: &Draft, texts: &Texts<'_>, offset: u32, length: u32) -> Option<StaticList> {
    let payload = &draft.payload[range(offset, length, draft.payload.len())?];
    let word = |at: usize| Some(u32::from_le_bytes(payload.get(at..at + 4)?.try_into().ok()?));
    let (item_count, origin_count) = (word(0)? as usize, word(4)? as usize);
    if item_count * 20 + origin_count * 8 + 8 != payload.len() {
        return None;
    }
    let mut items = Vec::new();
    for index in 0..item_count {
        let at = 8 + index * 20;
        let origin = texts.optional(word(at)?, word(at + 4)?)?;
        let name = texts.text(word(at + 8)?, word(at + 12)?)?;
        items.push((InkListItem::new(origin, name), word(at + 16)? as i32));
    }
    let mut origin_names = Vec::new();
    for index in 0..origin_count {
        let at = 8 + item_count * 20 + index * 8;
        origin_names.push(texts.text(word(at)?, word(at + 4)?)?);
    }
    Some(StaticList { items, origin_names })
}
