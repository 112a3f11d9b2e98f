//! The sleeper's view of every node against the technician's, and a text copied by the sleeper's call against one that
//! is copied from the place that the technician's call tells: both sides are ours.

use super::{Duration, Input, SLEEPER, Sheet, black_box, inputs, timed};
use crate::library::header_view;
use crate::library::sleeper::{VIEW_WORDS, sleeper_view, text_of};
use crate::parts::NONE;
use story_image::{ffi, sleeper_ffi};

/// Views of a round, at least: so that the clock does not count.
const VIEWS: usize = 100_000;

const SIDES: [&str; 2] = ["technician", "sleeper"];
const NOTES: &str = "20,000 tags, half of them notes";

/// Of an input that views are measured on.
pub fn run(input: &Input, sheet: &mut Sheet) {
    let readers = Readers::new(&input.image);
    sheet.duel("sleeper's views", SIDES, || readers.views(false), Some(|| readers.views(true)));
    sheet.duel("sleeper's texts", SIDES, || readers.texts(false), Some(|| readers.texts(true)));
}

/// Of tags, half of which are void to the sleeper: their texts are read, which the technician's view does not do.
pub fn notes(words: &str, sheet: &mut Sheet) {
    if words != SLEEPER && !NOTES.contains(words) {
        return;
    }
    let text = |number| format!("{} {number}", if number % 2 == 0 { "tech:" } else { "teach" });
    let mut parts = inputs::with_strings((0..20_000).map(text).collect());
    parts.nodes[1..].iter_mut().for_each(|node| node[2] = crate::names::kind::TAG);
    let image = inputs::image_of(NOTES, &parts.draft());
    println!("{NOTES}: {} bytes", image.len());
    sheet.input = NOTES;
    let readers = Readers::new(&image);
    sheet.duel("sleeper's tags", SIDES, || readers.views(false), Some(|| readers.views(true)));
}

/// Both readers of one image.
struct Readers<'a> {
    image: &'a [u8],
    view: [u32; 17],
    seen: [u32; VIEW_WORDS],
    /// Nodes whose text both show, and its place.
    texts: Vec<(u32, u32, u32)>,
}

impl<'a> Readers<'a> {
    fn new(image: &'a [u8]) -> Self {
        let mut readers = Readers { image, view: header_view(image), seen: sleeper_view(image), texts: vec![] };
        let (mut words, mut text) = ([0; 10], vec![0; image.len()]);
        for node in 0..readers.seen[1] {
            let number = readers.technician(node, &mut words);
            if number == 0 && words[3] != NONE && readers.sleeper_text(node, &mut text) == 0 {
                readers.texts.push((node, words[3], words[4]));
            }
        }
        readers
    }

    fn views(&self, sleeper: bool) -> Duration {
        let (mut words, mut seen) = ([0; 10], [0; 8]);
        let nodes = self.seen[1] as usize;
        timed(|| {
            for node in (0..1 + VIEWS / nodes).flat_map(|_| 0..nodes as u32) {
                black_box(if sleeper { self.sleeper(node, &mut seen) } else { self.technician(node, &mut words) });
                black_box((&words, &seen));
            }
        })
    }

    fn texts(&self, sleeper: bool) -> Duration {
        let longest = self.texts.iter().map(|(_, _, length)| *length as usize).max().unwrap_or(0);
        let mut buffer = vec![0; longest];
        timed(|| {
            for (node, offset, length) in &self.texts {
                if sleeper {
                    black_box(self.sleeper_text(*node, &mut buffer));
                } else {
                    self.technician_text(*offset, *length, &mut buffer);
                }
                black_box(&buffer);
            }
        })
    }

    // SAFETY of all four: the slices live through the call, and what is lent to be written is borrowed alone.
    fn technician(&self, node: u32, answer: &mut [u32; 10]) -> u32 {
        let (image, length, view) = (self.image.as_ptr(), self.image.len(), self.view.as_ptr());
        unsafe { ffi::story_image_node_view(image, length, view, 17, node, answer.as_mut_ptr(), 10) }
    }

    fn sleeper(&self, node: u32, answer: &mut [u32; 8]) -> u32 {
        let (image, length, view) = (self.image.as_ptr(), self.image.len(), self.seen.as_ptr());
        unsafe {
            sleeper_ffi::story_image_sleeper_node_view(image, length, view, VIEW_WORDS, node, answer.as_mut_ptr(), 8)
        }
    }

    fn technician_text(&self, offset: u32, length: u32, text: &mut [u8]) {
        let (image, bytes, view) = (self.image.as_ptr(), self.image.len(), self.view.as_ptr());
        let mut part = [0; 2];
        unsafe { ffi::story_image_text(image, bytes, view, 17, offset, length, part.as_mut_ptr(), 2) };
        let [start, length] = part.map(|word| word as usize);
        text[..length].copy_from_slice(&self.image[start..][..length]);
    }

    fn sleeper_text(&self, node: u32, text: &mut [u8]) -> u32 {
        let (image, length, view) = (self.image.as_ptr(), self.image.len(), self.seen.as_ptr());
        let (mut size, kind) = ([0; 1], text_of::NODE);
        let (room, text) = (text.len(), text.as_mut_ptr());
        unsafe {
            sleeper_ffi::story_image_sleeper_text(
                image,
                length,
                view,
                VIEW_WORDS,
                kind,
                node,
                0,
                text,
                room,
                size.as_mut_ptr(),
                1,
            )
        }
    }
}
