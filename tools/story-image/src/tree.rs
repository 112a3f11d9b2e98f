//! `tree`: the nodes of an accepted image as an indented tree.

use crate::call::Call;
use crate::depths::Depths;
use crate::each::{Manner, Shown, each};
use crate::end::{Fault, Status};
use crate::explain;
use inspect::library::{DivertOf, KindOf, ListEntryOf, ListOf, Reader};
use std::io::{self, Write};

pub const MORE: &str = "\
A line for each node: its depth, then, moved in by a step for each container around it, number, place or name in its
container, kind, texts and targets; at the end the list definitions. Of a refused image what `explain` says.
With --sleeper as the sleeper's reader has it: a note to the technician, a tag whose text begins with `tech:`, is void.
";

pub fn run(call: &Call) -> Result<Status, Fault> {
    each(call, &Manner { show, named: true, refusals: true })
}

pub fn show(shown: &Shown<'_>, out: &mut dyn Write) -> io::Result<()> {
    let Ok(image) = &shown.loaded else { return explain::show(shown, out) };
    writeln!(out, "{}", explain::answer(&shown.loaded))?;
    if shown.call.has("--sleeper") { tree(&image.sleeper(), out) } else { tree(image, out) }
}

/// Deeper lines are not moved further in; the depth in front says where they stand.
const DEEPEST: usize = 40;

/// A text in quotes, with what does not print escaped.
fn quoted(text: &impl AsRef<str>) -> String {
    format!("{:?}", text.as_ref())
}

/// How a node stands in its container.
enum By<T> {
    Root,
    Place(usize),
    Name(T),
}

/// One line a node: its depth, then, moved in by a step for each container around it, number, place or name in its
/// container, kind and what it holds. A node that is met again is named only.
pub fn tree(image: &impl Reader, out: &mut dyn Write) -> io::Result<()> {
    writeln!(out, "depth  node")?;
    let mut depths = Depths::new(image);
    let mut seen = vec![false; image.node_count() as usize];
    let mut pending = vec![(0, 0, By::Root)];
    while let Some((node, level, by)) = pending.pop() {
        let again = std::mem::replace(&mut seen[node as usize], true);
        let depth = depths.of(image, node).map_or("-".to_owned(), |depth| depth.to_string());
        write!(out, "{depth:>5}  {:width$}", "", width = 2 * level.min(DEEPEST))?;
        line(image, node, &by, again, out)?;
        if again {
            continue;
        }
        let ordered = image.children(node).into_iter().enumerate().map(|(k, child)| (child, level + 1, By::Place(k)));
        let named = image.named_children(node).into_iter().map(|(name, child)| (child, level + 1, By::Name(name)));
        let first = pending.len();
        pending.extend(ordered);
        pending.extend(named);
        pending[first..].reverse();
    }
    definitions(image, out)
}

fn line<R: Reader>(image: &R, node: u32, by: &By<R::Text>, again: bool, out: &mut dyn Write) -> io::Result<()> {
    match by {
        By::Root => write!(out, "{node} ")?,
        By::Place(place) => write!(out, "{node} .{place} ")?,
        By::Name(name) => write!(out, "{node} {} ", quoted(name))?,
    }
    match image.node(node) {
        _ if again => writeln!(out, "see above"),
        Some(view) => writeln!(out, "{}", words(&view.kind)),
        None => writeln!(out, "no view"),
    }
}

/// A kind and what it holds, in words.
fn words<T: AsRef<str>>(kind: &KindOf<T>) -> String {
    let target = |target: &Option<u32>| target.map(|node| format!(" -> {node}")).unwrap_or_default();
    let flags = |flags: i32| if flags == 0 { String::new() } else { format!(" flags {flags}") };
    let held = match kind {
        KindOf::Container { name, flags: word } => {
            name.as_ref().map(|name| format!(" {}", quoted(name))).unwrap_or_default() + &flags(*word)
        }
        KindOf::Choice { target: node, flags: word } => target(node) + &flags(*word),
        KindOf::Command(name) | KindOf::Operator(name) => format!(" {name}"),
        KindOf::Divert(divert) => target(&divert.target) + &divert_words(divert),
        KindOf::Glue | KindOf::Void => String::new(),
        KindOf::Tag(text) | KindOf::String(text) | KindOf::DivertTarget(text) => format!(" {}", quoted(text)),
        KindOf::Bool(value) => format!(" {value}"),
        KindOf::Int(value) => format!(" {value}"),
        KindOf::Float(bits) => format!(" {:?} (bits {bits:08x})", f32::from_bits(*bits)),
        KindOf::List(list) => format!(" {}", list_words(list)),
        KindOf::Pointer { name, context } => format!(" {} context {context}", quoted(name)),
        KindOf::Assignment { name, global, new_declaration } => {
            let (global, new) = (if *global { " global" } else { "" }, if *new_declaration { " new" } else { "" });
            format!(" {}{global}{new}", quoted(name))
        }
        KindOf::Reference { name, target: node } => format!(" {}{}", quoted(name), target(node)),
    };
    format!("{}{held}", kind.name())
}

fn divert_words<T: AsRef<str>>(divert: &DivertOf<T>) -> String {
    let mut words = String::new();
    if let Some(path) = &divert.path {
        words += &format!(" path {}", quoted(path));
    }
    if let Some(variable) = &divert.variable {
        words += &format!(" variable {}", quoted(variable));
    }
    if divert.arguments != 0 {
        words += &format!(" arguments {}", divert.arguments);
    }
    if let Some(pushed) = divert.pushes {
        words += &format!(" pushes {pushed}");
    }
    words + if divert.conditional { " conditional" } else { "" } + if divert.external { " external" } else { "" }
}

fn list_words<T: AsRef<str>>(list: &ListOf<T>) -> String {
    let item = |(origin, name, value): &ListEntryOf<T>| {
        let origin = origin.as_ref().map(|origin| format!("{}.", origin.as_ref())).unwrap_or_default();
        format!("{}: {value}", quoted(&format!("{origin}{}", name.as_ref())))
    };
    let items: Vec<_> = list.items.iter().map(item).collect();
    let origins: Vec<_> = list.origins.iter().map(quoted).collect();
    format!("[{}] origins [{}]", items.join(", "), origins.join(", "))
}

fn definitions(image: &impl Reader, out: &mut dyn Write) -> io::Result<()> {
    for definition in image.definitions() {
        let items: Vec<_> = definition.items.iter().map(|(name, value)| format!("{}: {value}", quoted(name))).collect();
        writeln!(out, "list {}: {}", quoted(&definition.name), items.join(", "))?;
    }
    Ok(())
}
