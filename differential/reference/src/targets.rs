//! Targets found from paths: the published function on a draft whose path texts are parsed.

use crate::draft::{Draft, Story};
use crate::story_content::{NodeId, NodeKind, StaticPath, StaticValue};
use crate::view::Step;

const NONE: u32 = u32::MAX;

#[derive(Clone, Debug, PartialEq)]
pub enum Resolved {
    /// The words of the nodes.
    Nodes(Vec<u32>),
    Refused(String),
    /// The draft's tables do not make a story.
    NoStory,
}

pub fn resolve(draft: &Draft) -> Resolved {
    let Some(mut story) = Story::with_paths(draft) else {
        return Resolved::NoStory;
    };
    match resolve_story(&mut story) {
        Ok(()) => Resolved::Nodes(node_words(&story, draft)),
        Err(message) => Resolved::Refused(message),
    }
}

/// The published function alone.
pub fn resolve_story(story: &mut Story) -> Result<(), String> {
    story.0.resolve_static_targets().map_err(|error| error.get_message())
}

/// A path text as the published Rust parses it: whether it is relative, and its components. An index beyond a word is
/// given as the last one, at which no child can be.
pub fn steps_of(text: &str) -> (bool, Vec<Step>) {
    let path = StaticPath::from_text(text);
    let steps = path.components.iter().map(|component| match (component.index, &component.name) {
        (Some(index), _) => Step::Index(u32::try_from(index).unwrap_or(u32::MAX)),
        (None, Some(name)) if !component.is_parent() => Step::Name(name.clone()),
        _ => Step::Parent,
    });
    (path.relative, steps.collect())
}

/// The draft's words with the story's targets; a text is absent where the story has no path.
fn node_words(story: &Story, draft: &Draft) -> Vec<u32> {
    let mut nodes = draft.nodes.clone();
    for (record, words) in story.0.nodes.iter().zip(nodes.chunks_exact_mut(10)) {
        let (target, at, text) = match &record.kind {
            NodeKind::ChoicePoint(choice) => (choice.target.map(|id| id.node()), 5, choice.path.is_none().then_some(3)),
            NodeKind::Divert(divert) => (divert.target, 5, divert.path.is_none().then_some(3)),
            NodeKind::Value(StaticValue::DivertTarget { target, .. }) => (*target, 5, None),
            NodeKind::VariableReference(reference) => {
                let absent = reference.count_path.is_none().then_some(5);
                (reference.count_target.map(|id| id.node()), 7, absent)
            }
            _ => continue,
        };
        words[at] = target.map_or(NONE, |NodeId(id)| id);
        if let Some(text) = text {
            words[text..text + 2].fill(NONE);
        }
    }
    nodes
}
