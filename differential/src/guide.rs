//! A spoken guide through the hook-up of a sleep recorder, made as a draft: every kind of node is in it.

use crate::parts::{NONE, Parts};
use std::collections::BTreeMap;

/// One step of the guide: its name, what is said, and what to try if it fails.
struct Lesson {
    name: &'static str,
    said: [&'static str; 3],
    help: &'static str,
}

const LESSONS: [Lesson; 11] = [
    Lesson {
        name: "unpack",
        said: [
            "Open the case and lay it on the bed.",
            "There is a belt, a clip, a tube and a recorder.",
            "Is it all there?",
        ],
        help: "Look under the lid: the tube lies in the net.",
    },
    Lesson {
        name: "belt",
        said: [
            "Put the belt round your chest, under the arms.",
            "It should sit close, but not tight.",
            "Can you breathe easily?",
        ],
        help: "Loosen the belt by two fingers’ width.",
    },
    Lesson {
        name: "belly_belt",
        said: ["The second belt goes round the belly.", "The socket points forward.", "Does the socket point forward?"],
        help: "Turn the belt until the socket is above the navel.",
    },
    Lesson {
        name: "recorder",
        said: ["Press the recorder on the two studs of the belt.", "You hear two clicks.", "Did you hear both?"],
        help: "Press on each corner in turn.",
    },
    Lesson {
        name: "cannula",
        said: ["Lead the tube over both ears.", "The two short ends go into the nose.", "Does it sit well?"],
        help: "Draw the slide up to the chin, gently.",
    },
    Lesson {
        name: "finger_clip",
        said: ["Put the clip on the ring finger.", "The light shines on the nail.", "Do you see a red light?"],
        help: "Take off nail varnish, or choose another finger.",
    },
    Lesson {
        name: "leg_left",
        said: ["Clean the left shin with the cloth.", "Press the two round pads on the skin.", "Do they hold?"],
        help: "Dry the skin and take fresh pads.",
    },
    Lesson {
        name: "leg_right",
        said: ["Now the right shin.", "The pads lie a hand’s width apart.", "Do they hold?"],
        help: "Dry the skin and take fresh pads.",
    },
    Lesson {
        name: "microphone",
        said: [
            "Stick the small microphone below the throat.",
            "Its cable runs under the belt.",
            "Is the cable under the belt?",
        ],
        help: "Lead it from above to below, beside the tube.",
    },
    Lesson {
        name: "room",
        said: ["Close the window and dim the light.", "The room should have about 18 °C.", "Is it dark?"],
        help: "Cover small lamps with a cloth — not the recorder’s.",
    },
    Lesson {
        name: "signals",
        said: ["Lie on your back and breathe in, deeply.", "Hold it … and breathe out.", "Is the lamp green?"],
        help: "Yellow is enough. Red: we go through the sensors once more.",
    },
];

struct Node {
    parent: u32,
    place: u32,
    tag: u32,
    fields: [u32; 7],
    children: Vec<u32>,
    named: BTreeMap<String, u32>,
}

#[derive(Default)]
struct Guide {
    nodes: Vec<Node>,
    strings: Vec<u8>,
    places: BTreeMap<String, (u32, u32)>,
    payload: Vec<u8>,
}

impl Guide {
    fn text(&mut self, text: &str) -> (u32, u32) {
        if let Some(place) = self.places.get(text) {
            return *place;
        }
        let place = (self.strings.len() as u32, text.len() as u32);
        self.strings.extend_from_slice(text.as_bytes());
        self.places.insert(text.to_owned(), place);
        place
    }

    fn push(&mut self, parent: u32, place: u32, tag: u32, fields: &[u32]) -> u32 {
        let mut all = [NONE; 7];
        all[..fields.len()].copy_from_slice(fields);
        self.nodes.push(Node { parent, place, tag, fields: all, children: vec![], named: BTreeMap::new() });
        self.nodes.len() as u32 - 1
    }

    /// An ordered child.
    fn add(&mut self, parent: u32, tag: u32, fields: &[u32]) -> u32 {
        let place = self.nodes[parent as usize].children.len() as u32;
        let node = self.push(parent, place, tag, fields);
        self.nodes[parent as usize].children.push(node);
        node
    }

    /// A container that only its name leads to.
    fn section(&mut self, parent: u32, name: &str, flags: u32) -> u32 {
        let (at, length) = self.text(name);
        let node = self.push(parent, NONE, 1, &[at, length, flags]);
        self.nodes[parent as usize].named.insert(name.to_owned(), node);
        node
    }

    /// A node of text alone: command, operator, tag, string.
    fn say(&mut self, parent: u32, tag: u32, text: &str) {
        let (at, length) = self.text(text);
        self.add(parent, tag, &[at, length]);
    }

    fn commands(&mut self, parent: u32, names: &[&str]) {
        for name in names {
            self.say(parent, 3, name);
        }
    }

    fn line(&mut self, parent: u32, text: &str) {
        self.say(parent, 11, text);
        self.say(parent, 11, "\n");
    }

    fn divert(&mut self, parent: u32, path: &str, target: u32, flags: u32) {
        let (at, length) = self.text(path);
        self.add(parent, 4, &[at, length, target, NONE, NONE, 0, flags]);
    }

    fn assign(&mut self, parent: u32, name: &str, flags: u32) {
        let (at, length) = self.text(name);
        self.add(parent, 16, &[at, length, flags]);
    }

    fn reference(&mut self, parent: u32, name: &str) {
        let (at, length) = self.text(name);
        self.add(parent, 17, &[at, length]);
    }

    /// How often a container was visited.
    fn visits(&mut self, parent: u32, path: &str, container: u32) {
        let (name, at) = (self.text(""), self.text(path));
        self.add(parent, 17, &[name.0, name.1, at.0, at.1, container]);
    }

    fn list(&mut self, parent: u32, origin: &str, items: &[(&str, u32)]) {
        let mut words = vec![items.len() as u32, 1];
        let origin = self.text(origin);
        for (name, value) in items {
            let name = self.text(name);
            words.extend([origin.0, origin.1, name.0, name.1, *value]);
        }
        words.extend([origin.0, origin.1]);
        let start = self.payload.len() as u32;
        self.payload.extend(words.iter().flat_map(|word| word.to_le_bytes()));
        self.add(parent, 12, &[start, words.len() as u32 * 4]);
    }
}

/// The states of a sensor, and the rooms' lights.
const LISTS: [(&str, &[(&str, u32)]); 2] = [
    ("lamp", &[("green", 1), ("red", 3), ("yellow", 2)]),
    ("sensors", &[("belt", 1), ("cannula", 2), ("clip", 4), ("pads", 8)]),
];

/// A guide of the first so many steps.
pub fn guide(steps: usize) -> Parts {
    let mut guide = Guide::default();
    let root = guide.push(NONE, NONE, 1, &[NONE, NONE, 0]);
    let lessons = &LESSONS[..steps];
    let knots: Vec<u32> = lessons.iter().map(|lesson| guide.section(root, lesson.name, 1)).collect();
    let night = guide.section(root, "good_night", 3);
    let mend = guide.section(root, "mend", 1);
    guide.line(root, "Good evening.");
    guide.divert(root, lessons[0].name, knots[0], 0);
    guide.commands(root, &["done"]);
    for (step, lesson) in lessons.iter().enumerate() {
        let (path, target) = match lessons.get(step + 1) {
            Some(next) => (next.name, knots[step + 1]),
            None => ("good_night", night),
        };
        said(&mut guide, lesson, knots[step]);
        answers(&mut guide, lesson, knots[step], path, target, mend);
    }
    helper(&mut guide, mend);
    ending(&mut guide, night, mend);
    variables(&mut guide, root, knots[0], lessons[0].name);
    parts(guide)
}

fn said(guide: &mut Guide, lesson: &Lesson, knot: u32) {
    guide.commands(knot, &["#"]);
    guide.say(knot, 11, "step");
    guide.commands(knot, &["/#"]);
    guide.say(knot, 7, lesson.name);
    for text in lesson.said {
        guide.line(knot, text);
    }
    guide.add(knot, 5, &[]);
}

fn answers(guide: &mut Guide, lesson: &Lesson, knot: u32, path: &str, target: u32, mend: u32) {
    for (name, label) in [("yes", "Yes"), ("no", "No")] {
        let answer = guide.section(knot, name, 5);
        guide.commands(knot, &["ev", "str"]);
        guide.say(knot, 11, label);
        guide.commands(knot, &["/str", "/ev"]);
        let (at, length) = guide.text(&format!("{}.{name}", lesson.name));
        guide.add(knot, 2, &[at, length, answer, 20]);
        if name == "yes" {
            guide.commands(answer, &["ev"]);
            guide.reference(answer, "steps_done");
            guide.add(answer, 9, &[1]);
            guide.say(answer, 6, "+");
            guide.commands(answer, &["/ev"]);
            guide.assign(answer, "steps_done", 1);
        } else {
            guide.line(answer, lesson.help);
            // a helper that comes back, from the second time on
            guide.commands(answer, &["ev"]);
            guide.visits(answer, lesson.name, knot);
            guide.add(answer, 9, &[2]);
            guide.say(answer, 6, ">");
            guide.commands(answer, &["/ev"]);
            guide.divert(answer, "mend", mend, 1 + 4);
        }
        guide.divert(answer, path, target, 0);
    }
}

/// A function: tells whether a value lies above another.
fn helper(guide: &mut Guide, mend: u32) {
    guide.assign(mend, "sensor", 2);
    guide.commands(mend, &["ev"]);
    guide.reference(mend, "sensor");
    guide.reference(mend, "limit");
    guide.say(mend, 6, "<");
    guide.commands(mend, &["/ev", "out"]);
    let inner = guide.add(mend, 1, &[NONE, NONE, 0]);
    guide.line(inner, "Someone will call you in a moment.");
    let (name, length) = guide.text("call_help");
    guide.add(inner, 4, &[name, length, NONE, NONE, NONE, 1, 2 + 4 + 8]);
    guide.add(inner, 18, &[]);
    guide.commands(mend, &["~ret"]);
}

fn ending(guide: &mut Guide, night: u32, mend: u32) {
    guide.commands(night, &["ev"]);
    let (name, length) = guide.text("limit");
    guide.add(night, 14, &[name, length, 0]);
    guide.commands(night, &["/ev"]);
    guide.divert(night, "mend", mend, 4 + 8);
    guide.line(night, "All sensors are on. The recorder starts by itself at eleven.");
    let (variable, length) = guide.text("after");
    guide.add(night, 4, &[NONE, NONE, NONE, variable, length, 0, 0]);
    guide.commands(night, &["end"]);
}

/// Global variables with their first values.
fn variables(guide: &mut Guide, root: u32, knot: u32, path: &str) {
    let globals = guide.section(root, "global decl", 0);
    guide.commands(globals, &["ev"]);
    guide.add(globals, 9, &[0]);
    guide.assign(globals, "steps_done", 3);
    guide.add(globals, 10, &[0.85_f32.to_bits()]);
    guide.assign(globals, "limit", 3);
    guide.add(globals, 8, &[1]);
    guide.assign(globals, "spoken", 3);
    guide.list(globals, "sensors", &[("belt", 1), ("clip", 4)]);
    guide.assign(globals, "worn", 3);
    guide.list(globals, "lamp", &[]);
    guide.assign(globals, "seen", 3);
    let (at, length) = guide.text(path);
    guide.add(globals, 13, &[at, length, knot]);
    guide.assign(globals, "after", 3);
    guide.commands(globals, &["/ev", "end"]);
}

/// The draft's sections, in the order of the nodes.
fn parts(mut guide: Guide) -> Parts {
    let mut parts = Parts { ink: 21, ..Parts::default() };
    for node in std::mem::take(&mut guide.nodes) {
        let mut f = node.fields;
        if node.tag == 1 {
            let starts = (parts.children.len() as u32, parts.named.len() as u32);
            f[3..].copy_from_slice(&[starts.0, node.children.len() as u32, starts.1, node.named.len() as u32]);
        }
        parts.nodes.push([node.parent, node.place, node.tag, f[0], f[1], f[2], f[3], f[4], f[5], f[6]]);
        parts.children.extend(node.children);
        for (name, child) in node.named {
            let (at, length) = guide.text(&name);
            parts.named.push([at, length, child]);
        }
    }
    for (name, items) in LISTS {
        let (at, length) = guide.text(name);
        parts.definitions.push([at, length, parts.items.len() as u32, items.len() as u32]);
        for (name, value) in items {
            let (at, length) = guide.text(name);
            parts.items.push([at, length, *value]);
        }
    }
    parts.payload = guide.payload;
    parts.strings = guide.strings;
    parts
}
