//! Tests of what is shown, on the samples and on images that are made here.

mod calls;
mod depths;
mod graphs;
mod large;
mod results;
mod targets;

use crate::call::Call;
use crate::commands;
use crate::each::{Show, Shown};
use std::path::{Path, PathBuf};
use story_image::{DraftBuilder, NodeKind, PushPopType, Room};

fn sample(name: &str) -> Vec<u8> {
    let file = Path::new(env!("CARGO_MANIFEST_DIR")).join("../../samples").join(name);
    std::fs::read(file).expect("a sample")
}

/// A folder of one test's own, removed with it.
struct Folder(PathBuf);

impl Folder {
    fn new(name: &str) -> Folder {
        let folder = std::env::temp_dir().join(format!("story-image-{}-{name}", std::process::id()));
        std::fs::create_dir(&folder).expect("a new folder");
        Folder(folder)
    }
}

impl Drop for Folder {
    fn drop(&mut self) {
        let _ = std::fs::remove_dir_all(&self.0);
    }
}

/// What a command shows of an image.
fn shown(show: Show, bytes: &[u8], words: &[&str]) -> String {
    let words: Vec<_> = words.iter().map(|word| word.into()).collect();
    let call = Call::parse(commands::find("graph").unwrap(), &words).unwrap();
    let mut out = vec![];
    show(&Shown::new(&call, "-", bytes), &mut out).unwrap();
    String::from_utf8(out).unwrap()
}

/// The image of a draft with room for so many nodes, named entries and bytes of texts.
fn written(nodes: usize, strings: usize, make: impl FnOnce(&mut DraftBuilder<'_>)) -> Vec<u8> {
    let room = Room {
        nodes: &mut vec![0; 10 * nodes],
        children: &mut vec![0; nodes],
        named: &mut vec![0; 3 * nodes],
        strings: &mut vec![0; strings],
        ..Room::default()
    };
    let mut draft = DraftBuilder::new(room).unwrap();
    make(&mut draft);
    let draft = draft.finish();
    let mut work = vec![0; draft.work_words()];
    let mut output = vec![0; draft.image_length(21, &mut work).unwrap()];
    draft.write(21, &mut work, &mut output).unwrap();
    output
}

const CONTAINER: NodeKind<'_> = NodeKind::Container { name: None, count_flags: 0 };

fn divert(target: u32, pushes_to_stack: bool) -> NodeKind<'static> {
    NodeKind::Divert {
        path: None,
        target: Some(target),
        variable_name: None,
        external_args: 0,
        conditional: false,
        external: false,
        pushes_to_stack,
        stack_push_type: PushPopType::Tunnel,
    }
}

/// Children of a container, in order.
fn add(draft: &mut DraftBuilder<'_>, container: u32, kinds: &[NodeKind<'_>]) {
    for kind in kinds {
        draft.child(container, *kind).unwrap();
    }
}
