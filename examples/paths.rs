//! The same as paths.c in Rust: finds the targets of a small draft from its path texts, writes the image and loads it.
//!
//! Prints where the choice and the divert lead in the image; or the refusal.

use std::error::Error;
use story_image::{DraftBuilder, Image, NONE, NodeKind, NodeKindView, PushPopType, Room, load_words};

fn main() -> Result<(), Box<dyn Error>> {
    let room = Room {
        nodes: &mut [0; 50],
        children: &mut [0; 3],
        named: &mut [0; 3],
        strings: &mut [0; 100],
        ..Room::default()
    };
    let mut draft = DraftBuilder::new(room)?;
    // targets are to be found
    draft.child(0, NodeKind::ChoicePoint { path: Some(".^.night"), target: NONE, flags: 0 })?;
    draft.child(
        0,
        NodeKind::Divert {
            path: Some("night.0"),
            target: None,
            variable_name: None,
            external_args: 0,
            conditional: false,
            external: false,
            pushes_to_stack: false,
            stack_push_type: PushPopType::Tunnel,
        },
    )?;
    let night = draft.named_container(0, "night")?;
    draft.child(night, NodeKind::String("Good night."))?;

    let mut draft = draft.finish_open();
    let mut words = vec![0; draft.path_words()];
    let paths = draft.paths(&mut words)?;
    let mut work = vec![0; draft.work_words()];
    let draft = draft.resolve_static_targets(21, &paths, &mut work)?;
    let mut bytes = vec![0; draft.image_length(21, &mut work)?];
    draft.write(21, &mut work, &mut bytes)?;

    let image = Image::load(&bytes, &mut vec![0; load_words(&bytes)])?;
    for node in 0..image.node_count() {
        let target = match image.node_view(node).map(|view| view.kind) {
            Some(NodeKindView::ChoicePoint { target, .. } | NodeKindView::Divert { target, .. }) => target,
            _ => None,
        };
        if let Some(target) = target {
            println!("{node} leads to {target}");
        }
    }
    Ok(())
}
