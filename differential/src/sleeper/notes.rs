//! Notes in an image, and what looks like notes: tags that begin nearly so, other texts that begin so. Then the same
//! image with other notes.

use super::references::{At, Text, lay, texts};
use super::seen::PREFIX;
use crate::names::kind;
use crate::parts::Parts;
use crate::path_index;
use crate::random::Random;
use crate::texts;
use std::collections::HashMap;

/// An image, and its texts.
#[derive(Clone)]
pub struct Story {
    pub parts: Parts,
    pub texts: Vec<Text>,
}

/// Texts that are no note's, though nearly: in words, by what they are told, and some.
pub struct Near {
    pub name: &'static str,
    pub is: fn(&str) -> bool,
    spelled: &'static [&'static str],
}

pub const NEAR: [Near; 5] = [
    Near {
        name: "near-notes: cut short",
        is: |text| !text.is_empty() && text != PREFIX && PREFIX.starts_with(text),
        spelled: &["tech", "tec", "t"],
    },
    Near {
        name: "near-notes: other letters large",
        is: |text| !is_note(text) && text.get(..5).is_some_and(|front| front.eq_ignore_ascii_case(PREFIX)),
        spelled: &["Tech:", "TECH:", "tecH:"],
    },
    Near {
        name: "near-notes: a character before",
        is: |text| without(text, 0).is_some_and(|rest| is_note(&rest)),
        spelled: &[" tech:", ".tech:", "\u{feff}tech:", "ttech:"],
    },
    Near {
        name: "near-notes: a character before the colon",
        is: |text| !is_note(text) && without(text, 4).is_some_and(|rest| is_note(&rest)),
        spelled: &["tech :", "techs:", "tech\u{a0}:", "tech\0:"],
    },
    Near {
        name: "near-notes: another character for the colon",
        is: |text| text.strip_prefix("tech").and_then(|rest| rest.chars().next()).is_some_and(|next| next != ':'),
        spelled: &["tech;", "tech.", "tech\u{ff1a}", "tech\0", "techn"],
    },
];

pub fn is_note(text: &str) -> bool {
    text.starts_with(PREFIX)
}

/// A text without its character at this byte.
fn without(text: &str, at: usize) -> Option<String> {
    let character = text.get(at..)?.chars().next()?;
    Some(format!("{}{}", &text[..at], &text[at + character.len_utf8()..]))
}

/// Kinds of nodes that are left as they are; any other may be a tag as well.
const LEFT: [u32; 4] = [kind::CONTAINER, kind::LIST, kind::STRING, kind::TAG];

impl Story {
    /// An accepted image with notes and near-notes, and with other texts that begin as notes do.
    pub fn noted(bytes: &[u8], random: &mut Random) -> Self {
        let mut parts = Parts::of(bytes);
        for node in parts.nodes.iter_mut().filter(|node| !LEFT.contains(&node[2])) {
            if random.once_in(3) {
                (node[2], node[3], node[4]) = (kind::TAG, 0, 0);
            }
        }
        let texts = texts(&parts);
        let mut story = Story { parts, texts };
        story.spell(random);
        story.begin_lists(random);
        let plain = story.clone();
        story.begin_names(random);
        lay(&mut story.parts, &story.texts, random);
        // other names may make equal paths
        if path_index::row(&story.parts.bytes()) == 0 {
            return story;
        }
        story = plain;
        lay(&mut story.parts, &story.texts, random);
        story
    }

    /// The same image with other notes and another strings section.
    pub fn another(&self, random: &mut Random) -> Self {
        let mut story = self.clone();
        for number in story.notes() {
            let held = held(&self.texts[number].text[PREFIX.len()..], random);
            story.texts[number].text = format!("{PREFIX}{held}");
        }
        lay(&mut story.parts, &story.texts, random);
        story
    }

    /// Which of the texts are notes.
    pub fn notes(&self) -> Vec<usize> {
        let note = |number: &usize| self.is_tag(self.texts[*number].at) && is_note(&self.texts[*number].text);
        (0..self.texts.len()).filter(note).collect()
    }

    pub fn is_tag(&self, at: At) -> bool {
        self.tag(at) == Some(kind::TAG)
    }

    /// The kind of the node that names a text.
    pub fn tag(&self, at: At) -> Option<u32> {
        if let At::Node(node, _) = at { Some(self.parts.nodes[node][2]) } else { None }
    }

    /// Whether a text may be any other.
    fn is_free(&self, at: At) -> bool {
        match self.tag(at) {
            Some(tag) => ![kind::CONTAINER, kind::COMMAND, kind::OPERATOR, kind::TAG].contains(&tag),
            None => matches!(at, At::Payload(_)),
        }
    }

    /// Tags become notes and near-notes; of other texts that may be any, some begin so, or are a note's.
    fn spell(&mut self, random: &mut Random) {
        let others: Vec<String> = self.texts.iter().map(|text| text.text.clone()).collect();
        for number in 0..self.texts.len() {
            let at = self.texts[number].at;
            if self.is_tag(at) {
                let spelled = tag(&others, random);
                self.texts[number].text = spelled.unwrap_or_else(|| others[number].clone());
            } else if self.is_free(at) && random.once_in(4) {
                self.texts[number].text = format!("{PREFIX}{}", rest(&others, random));
            }
        }
        let free: Vec<usize> = (0..self.texts.len()).filter(|number| self.is_free(self.texts[*number].at)).collect();
        for note in self.notes() {
            if !free.is_empty() && random.once_in(2) {
                let text = &self.texts[note].text;
                let of_note = *random.pick(&[&text[..], &text[PREFIX.len()..], PREFIX]);
                self.texts[*random.pick(&free)].text = of_note.to_owned();
            }
        }
    }

    /// Puts `tech:` before each text of some; their order stays as it is.
    fn begin(&mut self, some: impl Fn(At) -> bool) {
        let begun = self.texts.iter_mut().filter(|text| some(text.at));
        begun.for_each(|text| text.text.insert_str(0, PREFIX));
    }

    /// Of texts whose order counts, all or none: the named entries of a container, definitions, the items of one.
    fn begin_lists(&mut self, random: &mut Random) {
        let range = |first: u32, count: u32| first as usize..first as usize + count as usize;
        for node in self.parts.nodes.clone().iter().filter(|node| node[2] == kind::CONTAINER && node[9] > 0) {
            if random.once_in(6) {
                self.begin(|at| matches!(at, At::Named(entry) if range(node[8], node[9]).contains(&entry)));
            }
        }
        if random.once_in(6) {
            self.begin(|at| matches!(at, At::Definition(_)));
        }
        for [_, _, first, count] in self.parts.definitions.clone() {
            if random.once_in(6) {
                self.begin(|at| matches!(at, At::Item(entry) if range(first, count).contains(&entry)));
            }
        }
    }

    /// Names of some containers begin so; the index follows.
    fn begin_names(&mut self, random: &mut Random) {
        let nodes: Vec<bool> =
            self.parts.nodes.iter().map(|node| node[2] == kind::CONTAINER && random.once_in(6)).collect();
        self.begin(|at| matches!(at, At::Node(node, _) if nodes[node]));
        if nodes.contains(&true) {
            self.file();
        }
    }

    /// Files each container under its path.
    fn file(&mut self) {
        let names: HashMap<usize, &str> = self.texts.iter().filter_map(|text| self.name(text)).collect();
        let mut filed: Vec<(String, u32)> =
            self.parts.index.iter().map(|entry| (self.path(&names, entry[2] as usize), entry[2])).collect();
        filed.sort();
        let nodes: Vec<u32> = filed.iter().map(|(_, node)| *node).collect();
        for text in &mut self.texts {
            if let At::Index(entry) = text.at {
                text.text = std::mem::take(&mut filed[entry].0);
            }
        }
        self.parts.index.iter_mut().zip(nodes).for_each(|(entry, node)| entry[2] = node);
    }

    /// A container and its name, if it has one.
    fn name<'a>(&self, text: &'a Text) -> Option<(usize, &'a str)> {
        match text.at {
            At::Node(node, _) if self.tag(text.at) == Some(kind::CONTAINER) => Some((node, &text.text[..])),
            _ => None,
        }
        .filter(|(_, name)| !name.is_empty())
    }

    fn path(&self, names: &HashMap<usize, &str>, mut node: usize) -> String {
        let mut pieces = vec![];
        while node != 0 {
            let [parent, place, ..] = self.parts.nodes[node];
            pieces.push(names.get(&node).map_or_else(|| place.to_string(), |name| name.to_string()));
            node = parent as usize;
        }
        pieces.reverse();
        pieces.join(".")
    }
}

/// The text of a tag: a note, a near-note, or as it was.
fn tag(others: &[String], random: &mut Random) -> Option<String> {
    match random.below(8) {
        0..4 => Some(format!("{PREFIX}{}", rest(others, random))),
        4..7 => {
            let (sort, end) = (random.pick(&NEAR), rest(others, random));
            let front = *random.pick(sort.spelled);
            // what is cut short is so at its end
            Some(if (sort.is)(&format!("{front}{end}")) { format!("{front}{end}") } else { front.to_owned() })
        }
        _ => None,
    }
}

fn rest(others: &[String], random: &mut Random) -> String {
    match random.below(4) {
        0 => String::new(),
        1 => random.pick(others).clone(),
        _ => texts::text(random),
    }
}

/// What a note holds in the second image: nothing, less, more, or something else.
fn held(before: &str, random: &mut Random) -> String {
    let characters = before.chars().count();
    match random.below(5) {
        0 => String::new(),
        1 => before.chars().take(random.below(characters + 1)).collect(),
        2 => format!("{before}{}", texts::text(random)),
        3 => (0..1 + random.below(20)).map(|_| texts::any_char(random)).collect(),
        _ => texts::text(random),
    }
}

#[cfg(test)]
mod tests {
    use super::super::references::set_words;
    use super::*;
    use crate::stories;

    /// An image without the words that name texts, and without these.
    fn bare(story: &Story) -> Parts {
        let mut parts = story.parts.clone();
        story.texts.iter().for_each(|text| set_words(&mut parts, text.at, (0, 0)));
        parts.strings.clear();
        parts
    }

    /// Both are accepted, have the texts that they are said to have, and differ in notes and the places of texts alone.
    #[test]
    fn a_pair_differs_as_it_may() {
        let mut random = Random::new(11);
        let mut changed = 0;
        for _ in 0..5_000 {
            let shape = stories::Shape::random(&mut random);
            let bytes = stories::Story::random(shape, &mut random).parts(&mut random).bytes();
            if path_index::row(&bytes) != 0 {
                continue;
            }
            let story = Story::noted(&bytes, &mut random);
            let other = story.another(&mut random);
            for story in [&story, &other] {
                let bytes = story.parts.bytes();
                assert_eq!(path_index::row(&bytes), 0);
                assert_eq!(texts(&Parts::of(&bytes)), story.texts);
            }
            assert_eq!(bare(&story), bare(&other));
            assert_eq!(story.notes(), other.notes());
            for (number, (text, another)) in story.texts.iter().zip(&other.texts).enumerate() {
                let note = story.notes().contains(&number);
                assert!(text == another || note && is_note(&another.text), "{text:?}, {another:?}");
                changed += u32::from(text != another);
            }
        }
        assert!(changed > 1_000, "{changed}");
    }

    #[test]
    fn near_notes_are_told_apart() {
        for near in &NEAR {
            for spelled in near.spelled {
                assert!(!is_note(spelled), "{spelled:?}");
                let told: Vec<&str> = NEAR.iter().filter(|other| (other.is)(spelled)).map(|other| other.name).collect();
                assert!(told.contains(&near.name), "{spelled:?} is told as {told:?}");
            }
        }
        assert!(is_note("tech:") && is_note("tech: call the lab") && NEAR.iter().all(|near| !(near.is)("tech:a")));
    }
}
