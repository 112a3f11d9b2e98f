//! Texts for generated stories, and the strings section that they are put into.

use crate::names::{CommandType, Op};
use crate::parts::NONE;
use crate::random::Random;

pub const COMMANDS: &[&str] = CommandType::NAMES;
pub const OPERATORS: &[&str] = Op::NAMES;

const NAMES: [&str; 40] = [
    "a",
    "b",
    "c",
    "ab",
    "abc",
    "knot",
    "stitch",
    "g-0",
    "g-1",
    "a.b",
    "a.0",
    ".",
    "..",
    ".a",
    "a.",
    "0",
    "1",
    "2",
    "3",
    "10",
    "03",
    "00",
    ".3",
    "-1",
    "4294967295",
    "4294967296",
    " ",
    "\t",
    "\u{85}",
    "\u{3000}",
    "\u{200b}",
    "é",
    "ß",
    "日本",
    "日",
    "😀",
    "\u{7f}",
    "\u{80}",
    "\u{ffff}",
    "\u{10ffff}",
];

/// Bytes that are no text, to lie unused among the strings.
pub const NO_TEXTS: [&[u8]; 6] = [b"\xff", b"\x80\x80", b"\xc0\xaf", b"\xed\xa0\x80", b"\xf4\x90\x80\x80", b"\xe3\x81"];

pub fn name(random: &mut Random) -> String {
    match random.below(12) {
        0 => String::new(),
        1 => format!("{}{}", random.pick(&NAMES), random.pick(&NAMES)),
        2 => format!("{}.{}", random.pick(&NAMES), random.pick(&NAMES)),
        3 => format!("n{}", random.below(100)),
        _ => random.pick(&NAMES).to_string(),
    }
}

pub fn plain_name(random: &mut Random) -> String {
    format!("{}{}", random.pick(&["a", "b", "k", "n", "é"]), random.below(1000))
}

/// Any text, up to some dozens of characters of all lengths.
pub fn text(random: &mut Random) -> String {
    match random.below(8) {
        0..4 => name(random),
        4 => OPERATORS[random.below(31)].to_owned(),
        5 => COMMANDS[random.below(26)].to_owned(),
        _ => {
            let length = random.below(30);
            (0..length).map(|_| any_char(random)).collect()
        }
    }
}

pub fn any_char(random: &mut Random) -> char {
    const LIMITS: [u32; 8] = [0, 0x7f, 0x80, 0x7ff, 0x800, 0xd7ff, 0xe000, 0x10ffff];
    let end = *random.pick(&[0x80, 0x80, 0x800, 0x1_0000, 0x11_0000]);
    let number = if random.once_in(6) { *random.pick(&LIMITS) } else { random.below(end) as u32 };
    char::from_u32(number).unwrap_or('\u{fffd}')
}

/// How texts are laid into the strings.
#[derive(Clone, Copy, PartialEq)]
pub enum Laying {
    /// Each anew.
    Anew,
    /// Equal texts once, as a writer does.
    Shared,
    /// Wherever the bytes already stand, also inside others and across them.
    Overlapping,
    /// Anew, with bytes between that nothing refers to.
    Scattered,
}

/// Where a part stands first. Only where its first byte stands is the rest compared.
fn position(bytes: &[u8], part: &[u8]) -> Option<usize> {
    let (first, last) = (part.first()?, bytes.len().checked_sub(part.len())?);
    (0..=last).find(|at| bytes[*at] == *first && bytes[*at..].starts_with(part))
}

pub struct Strings {
    pub bytes: Vec<u8>,
    laying: Laying,
    known: std::collections::HashMap<String, (u32, u32)>,
}

impl Strings {
    pub fn new(laying: Laying) -> Self {
        Strings { bytes: Vec::new(), laying, known: Default::default() }
    }

    pub fn put(&mut self, text: &str, random: &mut Random) -> (u32, u32) {
        let place = |at: usize| (at as u32, text.len() as u32);
        match self.laying {
            Laying::Shared => {
                if let Some(known) = self.known.get(text) {
                    return *known;
                }
                self.known.insert(text.to_owned(), place(self.bytes.len()));
            }
            Laying::Overlapping => {
                if text.is_empty() {
                    return place(random.below(self.bytes.len() + 1));
                }
                if let Some(at) = position(&self.bytes, text.as_bytes()) {
                    return place(at);
                }
            }
            Laying::Scattered => {
                if random.once_in(2) {
                    self.bytes.extend_from_slice(*random.pick(&NO_TEXTS[..]));
                }
            }
            Laying::Anew => {}
        }
        let at = self.bytes.len();
        self.bytes.extend_from_slice(text.as_bytes());
        place(at)
    }

    pub fn put_optional(&mut self, text: Option<&str>, random: &mut Random) -> (u32, u32) {
        text.map_or((NONE, NONE), |text| self.put(text, random))
    }
}
