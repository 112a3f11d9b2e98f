//! The same as screen.c in Rust: draws a screen of forty nodes of an image, from one call. `screen IMAGE [FIRST]`

use std::ffi::{OsStr, OsString};
use std::io::Read;
use std::process::ExitCode;
use story_image::{Image, NodeKindView as Kind, Refusal, Slot, ValueView as Value, load_words};

const MOST: usize = 65_536;
const SHOWN: usize = 40;

/// The text that a node has, if it has one, in quotes.
fn text(kind: Kind<'_>) -> String {
    let text = match kind {
        Kind::Container { name, .. } => name,
        Kind::Divert { path, .. } => path,
        Kind::Tag(text)
        | Kind::Value(Value::String(text) | Value::DivertTarget(text) | Value::VariablePointer { name: text, .. })
        | Kind::VariableAssignment { name: text, .. }
        | Kind::VariableReference { name: text, .. } => Some(text),
        _ => None,
    };
    text.map(|text| format!(" \"{text}\"")).unwrap_or_default()
}

/// A line for each number from `first` on.
fn draw(bytes: &[u8], first: u32) -> Result<(), Refusal> {
    let image = Image::load(bytes, &mut vec![0; load_words(bytes)])?;
    let numbers: [u32; SHOWN] = std::array::from_fn(|k| first + k as u32);
    let mut slots = [Slot::default(); SHOWN];
    let page = image.page(&numbers, &mut slots)?;
    for (number, node) in page.nodes() {
        match node {
            None => println!("{number} -"),
            Some(node) => {
                let parent = node.parent.map_or(-1, i64::from);
                println!("{number} {} of {parent}{}", node.kind.name(), text(node.kind));
            }
        }
    }
    Ok(())
}

/// The first bytes of a file, one more than an image may have.
fn read(name: &OsStr) -> std::io::Result<Vec<u8>> {
    let mut bytes = vec![];
    std::fs::File::open(name)?.take(MOST as u64 + 1).read_to_end(&mut bytes)?;
    Ok(bytes)
}

/// The screen of a file's image, and the exit status.
fn show(name: &OsStr, first: u32) -> u8 {
    let Ok(bytes) = read(name) else {
        eprintln!("screen: {} cannot be read", name.display());
        return 2;
    };
    if bytes.len() > MOST {
        println!("long");
        return 1;
    }
    if let Err(refusal) = draw(&bytes, first) {
        println!("no {}", refusal.number());
        return 1;
    }
    0
}

fn main() -> ExitCode {
    let words: Vec<OsString> = std::env::args_os().skip(1).collect();
    let first = |word: &OsString| word.to_str()?.parse().ok().filter(|first| *first <= u32::MAX - SHOWN as u32);
    let shown = match &words[..] {
        [name] => Some(show(name, 0)),
        [name, word] => first(word).map(|first| show(name, first)),
        _ => None,
    };
    if shown.is_none() {
        eprintln!("usage: screen IMAGE [FIRST]");
    }
    ExitCode::from(shown.unwrap_or(2))
}
