//! The same as write.c in Rust: writes the image of a small draft to a file, and loads it again. `write IMAGE`
//!
//! Prints the image's length, then `ok V N`; or the refusal.

use std::error::Error;
use story_image::{Draft, Image, NONE, load_words};

const CONTAINER: u32 = 1;
const COMMAND: u32 = 3;
const DIVERT: u32 = 4;
const STRING: u32 = 11;

/// The strings of a draft.
#[derive(Default)]
struct Strings(Vec<u8>);

impl Strings {
    /// Puts a text in: where it is, and how long. The writer stores equal texts once.
    fn put(&mut self, text: &str) -> [u32; 2] {
        let at = self.0.len() as u32;
        self.0.extend_from_slice(text.as_bytes());
        [at, text.len() as u32]
    }
}

/// The draft's image.
fn written() -> Result<Vec<u8>, Box<dyn Error>> {
    let mut strings = Strings::default();
    let [evening, evening_length] = strings.put("Good evening.");
    let [night, night_length] = strings.put("night");
    let [farewell, farewell_length] = strings.put("Good night.");
    let [end, end_length] = strings.put("end");
    let [sensors, sensors_length] = strings.put("sensors");
    let [belt, belt_length] = strings.put("belt");
    let [clip, clip_length] = strings.put("clip");

    // parent, place, tag, f0 to f6; what a kind lacks may be anything
    let nodes = [
        // no name; 2 children from 0 on, 1 named child from 0 on
        [NONE, NONE, CONTAINER, NONE, NONE, 0, 0, 2, 0, 1],
        [0, 0, STRING, evening, evening_length, 0, 0, 0, 0, 0],
        // leads to node 3
        [0, 1, DIVERT, night, night_length, 3, NONE, NONE, 0, 0],
        // 2 children from 2 on; named by node 0, so without place
        [0, NONE, CONTAINER, night, night_length, 0, 2, 2, 1, 0],
        [3, 0, STRING, farewell, farewell_length, 0, 0, 0, 0, 0],
        [3, 1, COMMAND, end, end_length, 0, 0, 0, 0, 0],
    ];
    let draft = Draft {
        nodes: nodes.as_flattened(),
        children: &[1, 2, 4, 5],
        // name, node
        named: &[night, night_length, 3],
        // name, first item, number of items; then name, value of each item
        definitions: &[sensors, sensors_length, 0, 2],
        items: &[belt, belt_length, 1, clip, clip_length, 4],
        payload: &[],
        strings: &strings.0,
    };
    let mut work = vec![0; draft.work_words()];
    let mut image = vec![0; draft.image_length(21, &mut work)?];
    draft.write(21, &mut work, &mut image)?;
    Ok(image)
}

fn main() -> Result<(), Box<dyn Error>> {
    let file = std::env::args_os().nth(1).ok_or("usage: write IMAGE")?;
    let bytes = written()?;
    println!("{} bytes", bytes.len());
    let mut work = vec![0; load_words(&bytes)];
    let image = Image::load(&bytes, &mut work)?;
    println!("ok {} {}", image.view().ink_version, image.view().nodes.count);
    std::fs::write(file, &bytes)?;
    Ok(())
}
