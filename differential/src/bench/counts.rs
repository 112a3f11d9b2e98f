//! Targets counted and set, on the drafts of `targets` after their targets were found. The count of the image is held
//! against a plain loop over the published views, since the published Rust has no such call. A target that is set is held
//! against our writer's test of 19, with which it begins: both sides are ours.

use super::targets::TOO_FEW_WORDS;
use super::{Duration, PUBLISHED, Sheet, black_box, inputs, timed};
use crate::library::{Counting, Writer, header_view};
use crate::ours::Ours;
use crate::ours::counts::set_target;
use crate::target_counts::model::draft_records;
use crate::targets::model::DIVERT;
use reference::Draft;

/// Nodes that the calls of a round go over, at least: so that the clock does not count.
const NODES: usize = 200_000;

pub fn run(draft: &Draft, sheet: &mut Sheet) {
    let image = inputs::image_of(sheet.input, draft);
    sheet.duel("count targets", PUBLISHED, published(&image), Some(count(&image)));
    sheet.duel("set a target", ["19 alone", "set"], tested(draft), Some(set(draft)));
}

fn published(image: &[u8]) -> impl FnMut() -> Duration {
    let view = inputs::view(image);
    let mut counts = vec![0; view.node_count()];
    move || timed(|| view.count_targets(black_box(&mut counts)))
}

fn count(image: &[u8]) -> impl FnMut() -> Duration {
    let view = header_view(image);
    let mut counts = vec![0; view[2] as usize];
    inputs::view(image).count_targets(&mut counts);
    let due = counts.clone();
    move || {
        counts.fill(0);
        let time = timed(|| Ours.count(black_box(image), &view, &mut counts));
        assert_eq!(counts, due);
        time
    }
}

/// How often a draft is tested in a round, an even number.
fn calls(draft: &Draft) -> usize {
    2 + NODES / draft_records(draft).len() / 2 * 2
}

fn tested(draft: &Draft) -> impl FnMut() -> Duration {
    move || {
        let test = || Ours.write(21, black_box(draft), &mut [], &mut []).0 == TOO_FEW_WORDS;
        timed(|| (0..calls(draft)).for_each(|_| assert!(test())))
    }
}

/// A divert that leads to node 0 and to the last one by turns: each call takes both steps.
fn set(draft: &Draft) -> impl FnMut() -> Duration {
    let records = draft_records(draft);
    let last = records.len() as u32 - 1;
    let node = records.iter().position(|record| record[2] == DIVERT).expect("a divert") as u32;
    let (mut draft, mut counts, calls) = (draft.clone(), vec![0; records.len()], calls(draft));
    assert_eq!(Ours.count_draft(&draft, &mut counts), 0);
    move || {
        let mut step = |target: u32| set_target(black_box(&mut draft), &mut counts, node, target) == 0;
        timed(|| (0..calls).for_each(|turn| assert!(step(if turn % 2 == 0 { 0 } else { last }))))
    }
}
