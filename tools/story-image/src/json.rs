//! `json`: what the others say, for programs: one JSON object on a line.

use crate::call::Call;
use crate::depths::Depths;
use crate::each::{Manner, Shown, each};
use crate::end::{Fault, Status};
use crate::explain::{answer, broken};
use inspect::library::{self, Definition, Divert, Image, Kind, List, Reader};
use std::io::{self, Write};

pub const MORE: &str = "\
Each object has `file`, `length`, `answer` and `number`. Of an accepted image `ink_version`, `nodes` (each with `node`,
`parent`, `place`, `depth`, `kind` and what the kind holds; null is absent) and `definitions`; of a refused one `words` and
`place` (`rule`, `section`, `entry`, `kind`, `field`, `byte`, `there`).
";

pub fn run(call: &Call) -> Result<Status, Fault> {
    each(call, &Manner { show, named: false, refusals: true })
}

/// A JSON string.
fn text(text: &str) -> String {
    let mut out = String::with_capacity(text.len() + 2);
    out.push('"');
    for character in text.chars() {
        match character {
            '"' => out.push_str("\\\""),
            '\\' => out.push_str("\\\\"),
            '\n' => out.push_str("\\n"),
            '\r' => out.push_str("\\r"),
            '\t' => out.push_str("\\t"),
            '\0'..='\x1f' | '\x7f' => out.push_str(&format!("\\u{:04x}", character as u32)),
            _ => out.push(character),
        }
    }
    out.push('"');
    out
}

fn optional_text(value: Option<&str>) -> String {
    value.map_or("null".to_owned(), text)
}

fn number(value: Option<u32>) -> String {
    value.map_or("null".to_owned(), |value| value.to_string())
}

fn array(members: impl IntoIterator<Item = String>) -> String {
    format!("[{}]", members.into_iter().collect::<Vec<_>>().join(","))
}

/// What a load says of the bytes; of a refusal its place, of an image its nodes and definitions.
pub fn show(shown: &Shown<'_>, out: &mut dyn Write) -> io::Result<()> {
    let (file, answer) = (text(shown.name), text(&answer(&shown.loaded)));
    write!(out, "{{\"file\":{file},\"length\":{},\"answer\":{answer}", shown.bytes.len())?;
    match &shown.loaded {
        Ok(image) => accepted(image, out)?,
        Err(number) => refused(shown.bytes, *number, out)?,
    }
    writeln!(out, "}}")
}

fn refused(bytes: &[u8], number: u32, out: &mut dyn Write) -> io::Result<()> {
    write!(out, ",\"number\":{number},\"words\":{},\"place\":", text(library::words(number)))?;
    let Some(broken) = broken(bytes, number) else {
        return write!(out, "null");
    };
    let place = &broken.place;
    write!(out, "{{\"rule\":{},\"section\":{}", text(broken.rule), text(place.part.name()))?;
    let entry = place.entry.map_or("null".to_owned(), |entry| entry.to_string());
    write!(out, ",\"entry\":{entry},\"kind\":{}", optional_text(place.kind))?;
    write!(out, ",\"field\":{},\"byte\":{},\"there\":{}}}", text(&place.field), place.byte, text(&broken.because))
}

fn accepted(image: &Image<'_>, out: &mut dyn Write) -> io::Result<()> {
    write!(out, ",\"number\":0,\"ink_version\":{},\"nodes\":[", image.ink_version())?;
    let mut depths = Depths::new(image);
    for node in 0..image.node_count() {
        if node > 0 {
            write!(out, ",")?;
        }
        node_object(image, node, depths.of(image, node), out)?;
    }
    let definitions = array(image.definitions().iter().map(definition));
    write!(out, "],\"definitions\":{definitions}")
}

fn node_object(image: &Image<'_>, node: u32, depth: Option<u32>, out: &mut dyn Write) -> io::Result<()> {
    let Some(view) = image.node(node) else {
        return write!(out, "null");
    };
    write!(out, "{{\"node\":{node},\"parent\":{},\"place\":{}", number(view.parent), number(view.place))?;
    write!(out, ",\"depth\":{},{}", number(depth), members(&view.kind))?;
    if matches!(view.kind, Kind::Container { .. }) {
        let named = image.named_children(node).into_iter();
        let named = array(named.map(|(name, child)| format!("{{\"name\":{},\"node\":{child}}}", text(name))));
        let children = array(image.children(node).iter().map(u32::to_string));
        write!(out, ",\"children\":{children},\"named\":{named}")?;
    }
    write!(out, "}}")
}

/// The kind, and what it holds.
fn members(kind: &Kind<'_>) -> String {
    let held = match kind {
        Kind::Container { name, flags } => format!(",\"name\":{},\"flags\":{flags}", optional_text(*name)),
        Kind::Choice { target, flags } => format!(",\"target\":{},\"flags\":{flags}", number(*target)),
        Kind::Command(name) | Kind::Operator(name) => format!(",\"name\":{}", text(name)),
        Kind::Divert(divert) => divert_members(divert),
        Kind::Glue | Kind::Void => String::new(),
        Kind::Tag(value) | Kind::String(value) | Kind::DivertTarget(value) => format!(",\"text\":{}", text(value)),
        Kind::Bool(value) => format!(",\"value\":{value}"),
        Kind::Int(value) => format!(",\"value\":{value}"),
        Kind::Float(bits) => {
            let value = f32::from_bits(*bits);
            let value = if value.is_finite() { format!("{value:?}") } else { "null".to_owned() };
            format!(",\"value\":{value},\"bits\":{bits}")
        }
        Kind::List(list) => list_members(list),
        Kind::Pointer { name, context } => format!(",\"name\":{},\"context\":{context}", text(name)),
        Kind::Assignment { name, global, new_declaration } => {
            format!(",\"name\":{},\"global\":{global},\"new\":{new_declaration}", text(name))
        }
        Kind::Reference { name, target } => format!(",\"name\":{},\"target\":{}", text(name), number(*target)),
    };
    format!("\"kind\":{}{held}", text(kind.name()))
}

fn divert_members(divert: &Divert<'_>) -> String {
    let texts = format!("\"path\":{},\"variable\":{}", optional_text(divert.path), optional_text(divert.variable));
    let numbers = format!("\"target\":{},\"arguments\":{}", number(divert.target), divert.arguments);
    let flags = format!("\"conditional\":{},\"external\":{}", divert.conditional, divert.external);
    format!(",{texts},{numbers},{flags},\"pushes\":{}", optional_text(divert.pushes))
}

fn list_members(list: &List<'_>) -> String {
    let item = |(origin, name, value): &library::ListEntry<'_>| {
        format!("{{\"origin\":{},\"name\":{},\"value\":{value}}}", optional_text(*origin), text(name))
    };
    let origins = array(list.origins.iter().map(|origin| text(origin)));
    format!(",\"items\":{},\"origins\":{origins}", array(list.items.iter().map(item)))
}

fn definition(definition: &Definition<'_>) -> String {
    let items = definition.items.iter().map(|(name, value)| format!("{{\"name\":{},\"value\":{value}}}", text(name)));
    format!("{{\"name\":{},\"items\":{}}}", text(definition.name), array(items))
}

#[cfg(test)]
mod tests {
    use super::text;

    #[test]
    fn texts_are_escaped() {
        assert_eq!(
            text("a\"b\\c\n\r\t\0\x1f\x7f\u{e9}\u{1f634}"),
            "\"a\\\"b\\\\c\\n\\r\\t\\u0000\\u001f\\u007f\u{e9}\u{1f634}\""
        );
    }
}
