//! Rows 8 to 13: the root, each node's parent and fields, entries left over.

use super::Rule;
use super::kinds::{Field, kind_of};
use super::place::{Broken, Part, Place, quoted};
use super::sections::Section::*;
use super::sections::{F, Image, NONE, PARENT, PLACE, Section, TAG, Word, shown, word_at};
use story_image::{CommandType, Op};

pub fn rules(image: &Image<'_>) -> Rule {
    root(image)?;
    let mut before = Before::default();
    for node in 0..image.count(Nodes) {
        parent(image, node)?;
        fields(image, node, &before)?;
        before.add(image, node);
    }
    left_over(image, &before)
}

/// Sums over the nodes before: ordered children, named children, bytes of payload, containers.
#[derive(Default)]
struct Before {
    children: usize,
    named: usize,
    payload: usize,
    containers: usize,
}

impl Before {
    fn add(&mut self, image: &Image<'_>, node: usize) {
        match image.tag(node) {
            1 => {
                self.children += image.field(node, 4) as usize;
                self.named += image.field(node, 6) as usize;
                self.containers += 1;
            }
            12 => self.payload += image.field(node, 1) as usize,
            _ => {}
        }
    }
}

/// Row 8: parent and place NONE, a container.
fn root(image: &Image<'_>) -> Rule {
    for (k, field) in [(PARENT, "parent"), (PLACE, "place")] {
        let word = image.word(Nodes, 0, k);
        if word != NONE {
            let because = format!("{word}; the root has NONE there");
            return Err(image.broken(8, "root", Word::new(Nodes, 0, k, field), because));
        }
    }
    if image.is_container(0) {
        return Ok(());
    }
    let because = format!("{}; the root is a container, 1", image.tag(0));
    Err(image.broken(8, "root", Word::new(Nodes, 0, TAG, "tag"), because))
}

/// A parent is a container and another node; the root has none.
fn parent(image: &Image<'_>, node: usize) -> Rule {
    if node == 0 {
        return Ok(());
    }
    let at = Word::new(Nodes, node, PARENT, "parent");
    let word = image.word(Nodes, node, PARENT);
    container(image, word, at)?;
    if word as usize == node {
        return Err(image.broken(9, "own parent", at, format!("{word}; the node itself")));
    }
    Ok(())
}

fn fields(image: &Image<'_>, node: usize, before: &Before) -> Rule {
    let Some(kind) = kind_of(image.tag(node)) else {
        let because = format!("{}; tags are 1 to 14 and 16 to 18", image.tag(node));
        return Err(image.broken(12, "tag", Word::new(Nodes, node, TAG, "tag"), because));
    };
    for (name, field) in kind.fields {
        field_rule(image, node, name, *field, before)?;
    }
    Ok(())
}

/// The rule of one field.
fn field_rule(image: &Image<'_>, node: usize, name: &str, field: Field, before: &Before) -> Rule {
    let word = |k: usize| image.field(node, k);
    let label = |k: usize| format!("{name} (f{k})");
    match field {
        Field::Text(k) => text(image, node, k, name).map(|_| ()),
        Field::OptionalText(k) => match image.optional_text(word(k), word(k + 1)) {
            Ok(_) => Ok(()),
            Err(why) => Err(bad_text(image, node, k, name, why)),
        },
        Field::Command(k) => known(image, node, k, "command", CommandType::NAMES),
        Field::Operator(k) => known(image, node, k, "operator", Op::NAMES),
        Field::Node(k) => inside(image, word(k), Word::new(Nodes, node, F + k, &label(k))).map(|_| ()),
        Field::Container(k) => container(image, word(k), Word::new(Nodes, node, F + k, &label(k))),
        Field::OptionalNode(k) | Field::OptionalContainer(k) if word(k) == NONE => Ok(()),
        Field::OptionalNode(k) => inside(image, word(k), Word::new(Nodes, node, F + k, &label(k))).map(|_| ()),
        Field::OptionalContainer(k) => container(image, word(k), Word::new(Nodes, node, F + k, &label(k))),
        Field::AtMost(k, most) if word(k) > most => {
            let because = format!("{}; at most {most}", shown(word(k)));
            Err(image.broken(12, "flag", Word::new(Nodes, node, F + k, &label(k)), because))
        }
        Field::AtMost(..) => Ok(()),
        Field::Children => entries(image, node, 3, Children, before.children),
        Field::Named => entries(image, node, 5, Named, before.named),
        Field::Payload => payload(image, node, before.payload),
    }
}

/// A text that must be there.
fn text<'a>(image: &Image<'a>, node: usize, k: usize, name: &str) -> Result<&'a str, Broken> {
    image.text(image.field(node, k), image.field(node, k + 1)).map_err(|why| bad_text(image, node, k, name, why))
}

fn bad_text(image: &Image<'_>, node: usize, k: usize, name: &str, why: String) -> Broken {
    let field = format!("{name} (f{k} f{})", k + 1);
    image.broken(10, "text", Word::new(Nodes, node, F + k, &field), why)
}

/// A text that is one of the known names.
fn known(image: &Image<'_>, node: usize, k: usize, what: &'static str, names: &[&str]) -> Rule {
    let name = text(image, node, k, "name")?;
    if names.contains(&name) {
        return Ok(());
    }
    let field = format!("name (f{k} f{})", k + 1);
    let because = format!("{} is no known {what}", quoted(name));
    Err(image.broken(12, what, Word::new(Nodes, node, F + k, &field), because))
}

/// A node of the image.
pub fn inside(image: &Image<'_>, node: u32, at: Word<'_>) -> Result<usize, Broken> {
    image.inside(node).ok_or_else(|| {
        let because = format!("{}; a node's number is below {}", shown(node), image.count(Nodes));
        image.broken(9, "node number", at, because)
    })
}

/// A node of the image that is a container.
pub fn container(image: &Image<'_>, node: u32, at: Word<'_>) -> Rule {
    let node = inside(image, node, at)?;
    if image.is_container(node) {
        return Ok(());
    }
    let kind = kind_of(image.tag(node)).map_or("unknown", |kind| kind.name);
    let because = format!("{node}, whose tag is {} ({kind}); a container is due", image.tag(node));
    Err(image.broken(9, "container", at, because))
}

/// Start and count of a container's entries, from field k on: inside, and from where those before end.
fn entries(image: &Image<'_>, node: usize, k: usize, section: Section, before: usize) -> Rule {
    let (start, count) = (image.field(node, k) as usize, image.field(node, k + 1) as usize);
    if start != before {
        let field = format!("start of {} (f{k})", section.name());
        let because = format!("{}; those of the containers before end at {before}", shown(image.field(node, k)));
        return Err(image.broken(11, "entries' start", Word::new(Nodes, node, F + k, &field), because));
    }
    if start + count > image.count(section) {
        let field = format!("count of {} (f{})", section.name(), k + 1);
        let because =
            format!("{} from {start} on; there are {}", shown(image.field(node, k + 1)), image.count(section));
        return Err(image.broken(11, "entries' range", Word::new(Nodes, node, F + k + 1, &field), because));
    }
    Ok(())
}

/// A list's payload: start, range, exact length, texts.
fn payload(image: &Image<'_>, node: usize, before: usize) -> Rule {
    let (start, length) = (image.field(node, 0) as usize, image.field(node, 1) as usize);
    if start != before {
        let because = format!("{}; the lists before end at {before}", shown(image.field(node, 0)));
        return Err(image.broken(11, "payload start", Word::new(Nodes, node, F, "start of payload (f0)"), because));
    }
    let at = Word::new(Nodes, node, F + 1, "length of payload (f1)");
    if start + length > image.count(Payload) {
        let because =
            format!("{} bytes from {start} on; there are {}", shown(image.field(node, 1)), image.count(Payload));
        return Err(image.broken(11, "payload range", at, because));
    }
    if length < 8 {
        return Err(image.broken(11, "payload length", at, format!("{length}; a list has 8 bytes at least")));
    }
    let list = image.start(Payload) + start;
    let (items, origins) = (word_at(image.bytes, list) as usize, word_at(image.bytes, list + 4) as usize);
    if length != 8 + 20 * items + 8 * origins {
        let because = format!("{length}; {items} items and {origins} origins take {}", 8 + 20 * items + 8 * origins);
        return Err(image.broken(11, "payload length", at, because));
    }
    list_texts(image, node, list, items, origins)
}

/// Of each item an optional origin and a name, then the list's origins.
fn list_texts(image: &Image<'_>, node: usize, list: usize, items: usize, origins: usize) -> Rule {
    let pair = |at: usize| (word_at(image.bytes, at), word_at(image.bytes, at + 4));
    let bad = |at: usize, what: String, because: String| {
        let field = format!("{what} of the list of node {node}");
        Broken {
            number: 10,
            rule: "text",
            place: Place { part: Part::Section(Payload), entry: None, kind: None, field, byte: at },
            because,
        }
    };
    for item in 0..items {
        let at = list + 8 + 20 * item;
        let ((origin, origin_length), (name, name_length)) = (pair(at), pair(at + 8));
        image.optional_text(origin, origin_length).map_err(|why| bad(at, format!("origin of item {item}"), why))?;
        image.text(name, name_length).map_err(|why| bad(at + 8, format!("name of item {item}"), why))?;
    }
    for origin in 0..origins {
        let at = list + 8 + 20 * items + 8 * origin;
        let (text, length) = pair(at);
        image.text(text, length).map_err(|why| bad(at, format!("origin {origin}"), why))?;
    }
    Ok(())
}

/// Row 13: no entry left over, and an index entry for each container.
fn left_over(image: &Image<'_>, sums: &Before) -> Rule {
    let used = [
        (Children, sums.children, "the containers use"),
        (Named, sums.named, "the containers use"),
        (Payload, sums.payload, "the lists use"),
        (Index, sums.containers, "containers:"),
    ];
    for (section, due, who) in used {
        if image.count(section) != due {
            let because = format!("{}; {who} {due}", image.count(section));
            let field = format!("count of {}", section.name());
            let rule = if section == Index { "index count" } else { "left over" };
            return Err(Broken::in_header(13, rule, field, section.count_at(), because));
        }
    }
    Ok(())
}
