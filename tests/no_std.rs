//! A program without the standard library and without an allocator: finds the target of a draft's path, writes the
//! draft, loads it and asks for a page; counts its targets and changes one. Exit status 0 if all is right.
#![no_std]
#![no_main]

use story_image::{DraftBuilder, Image, NONE, NodeKind, NodeKindView, Refusal, Room, Slot, ValueView, load_words};

// the C library, which the start of a program needs
#[link(name = "c")]
unsafe extern "C" {
    fn abort() -> !;
}

#[panic_handler]
fn panic(_: &core::panic::PanicInfo<'_>) -> ! {
    // SAFETY: it does not return.
    unsafe { abort() }
}

/// Named by the core library as it is shipped; never called, since a panic aborts.
#[unsafe(no_mangle)]
pub extern "C" fn rust_eh_personality() {}

#[unsafe(no_mangle)]
pub extern "C" fn main() -> i32 {
    let room = Room { nodes: &mut [0; 30], children: &mut [0; 2], strings: &mut [0; 20], ..Room::default() };
    let Ok(mut draft) = DraftBuilder::new(room) else { return 1 };
    let choice = NodeKind::ChoicePoint { path: Some(".^"), target: NONE, flags: 0 };
    for kind in [NodeKind::String("Good evening."), choice] {
        if draft.child(DraftBuilder::ROOT, kind).is_err() {
            return 2;
        }
    }
    let mut open = draft.finish_open();
    let (mut words, mut work, mut output) = ([0; 7], [0; 60], [0; 300]);
    let Ok(paths) = open.paths(&mut words) else { return 3 };
    let Ok(draft) = open.resolve_static_targets(21, &paths, &mut work) else { return 4 };
    let Ok(bytes) = draft.write(21, &mut work, &mut output) else { return 5 };
    let mut work = [0; 10];
    let Ok(image) = Image::load(bytes, &mut work[..load_words(bytes)]) else { return 6 };
    let mut slots = [Slot::default(); 4];
    let Ok(page) = image.page(&[1, 2, 0, 3], &mut slots) else { return 7 };
    if page.nodes().any(|(node, view)| view != image.node_view(node)) || page.slots()[3].has_view() {
        return 8;
    }
    let mut counts = [9; 4];
    if !image.target_counts(&mut counts).is_ok_and(|counts| counts.words() == [1, 0, 0]) || counts[3] != 9 {
        return 9;
    }
    let Ok(mut counted) = open.count_targets(&mut counts) else { return 10 };
    if counted.set_target(2, None) != Err(Refusal::NOT_FOUND) || counted.counts().total() != 1 {
        return 11;
    }
    match [0, 1].map(|slot| page.node_view(slot).map(|node| node.kind)) {
        [
            Some(NodeKindView::Value(ValueView::String("Good evening."))),
            Some(NodeKindView::ChoicePoint { target: Some(0), .. }),
        ] => 0,
        _ => 12,
    }
}
