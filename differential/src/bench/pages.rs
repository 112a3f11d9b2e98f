//! Forty nodes by one call, against forty calls: both are of our library. Then the same with the view of each slot,
//! which is what the forty calls give.

use super::{Duration, Input, Sheet, black_box, timed};
use crate::pages::{Record, SLOT};
use crate::random::Random;
use story_image::{Image, ffi, load_words};

/// Nodes that a screen shows.
const SCREEN: usize = 40;

/// Screens of a round, 100,000 nodes: so that the clock does not count.
const SCREENS: usize = 2_500;

const ONE_CALL: [&str; 2] = ["forty calls", "one call"];
const WITH_VIEWS: [&str; 2] = ["forty calls", "one call, forty slot views"];

pub fn run(input: &Input, sheet: &mut Sheet) {
    let image = &input.image;
    let view = Image::load(image, &mut vec![0; load_words(image)]).expect("an image").view().words();
    let (mut random, count) = (Random::new(40), input.nodes() as usize);
    let any: Vec<u32> = (0..SCREENS * SCREEN).map(|_| random.below(count) as u32).collect();
    let in_a_row: Vec<u32> = (0..SCREENS * SCREEN).map(|node| (node % count) as u32).collect();
    for (order, nodes) in [("any nodes", &any), ("in a row", &in_a_row)] {
        let screens = Screens { image, view, nodes };
        sheet.duel(&format!("page, {order}"), ONE_CALL, || screens.calls(), Some(|| screens.pages(false)));
        sheet.duel(&format!("views, {order}"), WITH_VIEWS, || screens.calls(), Some(|| screens.pages(true)));
    }
}

/// Screens of nodes, to be drawn one after the other.
struct Screens<'a> {
    image: &'a [u8],
    view: [u32; 17],
    nodes: &'a [u32],
}

impl Screens<'_> {
    /// Forty calls a screen.
    fn calls(&self) -> Duration {
        let mut answers = [Record::default(); SCREEN];
        timed(|| {
            for screen in self.nodes.chunks_exact(SCREEN) {
                for (node, answer) in screen.iter().zip(&mut answers) {
                    black_box(self.node_view(*node, answer));
                }
                black_box(&answers);
            }
        })
    }

    /// One call a screen; and if they are asked for, the view of each slot.
    fn pages(&self, views: bool) -> Duration {
        let (mut slots, mut answers) = ([[0; SLOT]; SCREEN], [Record::default(); SCREEN]);
        timed(|| {
            for screen in self.nodes.chunks_exact(SCREEN) {
                black_box(self.page(screen, slots.as_flattened_mut()));
                black_box(&slots);
                if views {
                    for (slot, answer) in slots.iter().zip(&mut answers) {
                        black_box(self.slot_view(slot, answer));
                    }
                    black_box(&answers);
                }
            }
        })
    }

    // SAFETY of all three: the slices live through the call, and what is lent to be written is borrowed alone.
    fn node_view(&self, node: u32, answer: &mut Record) -> u32 {
        let (image, length, view, words) = self.lent();
        unsafe { ffi::story_image_node_view(image, length, view, words, node, answer.as_mut_ptr(), answer.len()) }
    }

    fn page(&self, numbers: &[u32], slots: &mut [u32]) -> u32 {
        let (image, length, view, words) = self.lent();
        let (numbers, count) = (numbers.as_ptr(), numbers.len());
        unsafe { ffi::story_image_page(image, length, view, words, numbers, count, slots.as_mut_ptr(), slots.len()) }
    }

    fn slot_view(&self, slot: &[u32], answer: &mut Record) -> u32 {
        let (image, length, view, words) = self.lent();
        let (slot, room) = (slot.as_ptr(), slot.len());
        unsafe { ffi::story_image_slot_view(image, length, view, words, slot, room, answer.as_mut_ptr(), answer.len()) }
    }

    fn lent(&self) -> (*const u8, usize, *const u32, usize) {
        (self.image.as_ptr(), self.image.len(), self.view.as_ptr(), self.view.len())
    }
}
