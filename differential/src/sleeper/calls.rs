//! Calls of the sleeper's reader with marked slices, and what is due on return.

use crate::images::MARK;
use crate::library::sleeper::{Answer, Ask, Sleeper, VIEW_WORDS, Which, sleeper_view};

/// Bytes that are lent for a text hold this before a call.
const BYTE: u8 = 0xa5;

pub fn ask(reader: &dyn Sleeper, view: &[u32], ask: &Ask) -> Answer {
    Answer::to(|answer, searched| reader.ask(view, ask, answer, searched))
}

/// A load: its number, and the work words and the view on return.
#[derive(Debug, PartialEq)]
pub struct Load {
    number: u32,
    work: Vec<u32>,
    view: Vec<u32>,
}

impl Load {
    /// With so many work words, and so many words for the view.
    pub fn of(reader: &dyn Sleeper, [words, room]: [usize; 2]) -> Self {
        let (mut work, mut view) = (vec![MARK; words], vec![MARK; room]);
        let number = reader.load(&mut work, &mut view);
        Load { number, work, view }
    }

    /// What is due of bytes whose row is known and that need so many work words. Too short a view is a lack of these.
    pub fn due(bytes: &[u8], row: u32, needed: usize, [words, room]: [usize; 2]) -> Self {
        let mut load = Load { number: row, work: vec![MARK; words], view: vec![MARK; room] };
        if !(1..=6).contains(&row) && (words < needed || room < VIEW_WORDS) {
            load.number = 7;
        }
        if !(1..=7).contains(&load.number) {
            load.work[..needed].fill(0);
        }
        if load.number == 0 {
            load.view[..VIEW_WORDS].copy_from_slice(&sleeper_view(bytes));
        }
        load
    }
}

/// Bytes that are lent for a text, and words for its length.
#[derive(Clone, Copy, Debug)]
pub struct Room {
    pub bytes: usize,
    pub words: usize,
}

/// A copied text: the number, and both slices on return, with two bytes behind the first that were not lent.
#[derive(Debug, PartialEq)]
pub struct Copied {
    pub number: u32,
    text: Vec<u8>,
    size: Vec<u32>,
}

impl Copied {
    fn marked(room: Room) -> Self {
        Copied { number: 18, text: vec![BYTE; room.bytes + 2], size: vec![MARK; room.words] }
    }

    pub fn of(reader: &dyn Sleeper, view: &[u32], which: Which, room: Room) -> Self {
        let mut copied = Copied::marked(room);
        copied.number = reader.text(view, which, &mut copied.text[..room.bytes], &mut copied.size);
        copied
    }

    /// 18 without a text; then 23 where it or its length has no room. Neither writes.
    pub fn due(text: Option<&[u8]>, room: Room) -> Self {
        let mut copied = Copied::marked(room);
        if let Some(text) = text {
            copied.number = 23;
            if text.len() <= room.bytes && room.words > 0 {
                copied.number = 0;
                copied.text[..text.len()].copy_from_slice(text);
                copied.size[0] = text.len() as u32;
            }
        }
        copied
    }
}

/// All sorts of room for a text: none, a byte too few, just enough, more, none for its length.
pub fn rooms(text: Option<&[u8]>) -> Vec<Room> {
    let Some(length) = text.map(<[u8]>::len) else {
        return vec![Room { bytes: 0, words: 0 }, Room { bytes: 9, words: 2 }];
    };
    let mut rooms = vec![Room { bytes: length, words: 1 }, Room { bytes: length + 3, words: 2 }];
    rooms.push(Room { bytes: length, words: 0 });
    if length > 0 {
        rooms.extend([0, length - 1].map(|bytes| Room { bytes, words: 1 }));
    }
    rooms
}
