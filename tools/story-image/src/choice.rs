//! The text of a choice.
//!
//! A choice takes its text from strings that are made just before it: behind `ev`, between `str` and `/str`, first that
//! which is said again when the choice is taken (flag 2), then that of the choice alone (flag 4), then perhaps a
//! condition; `/ev` stands in front of the choice. The first is often a container by itself, and a divert leads to it.

use inspect::library::{Image, Kind, Reader};

const START_CONTENT: i32 = 2;
const CHOICE_ONLY_CONTENT: i32 = 4;

/// Nodes of a container that is taken for a text.
const MOST_PARTS: u32 = 20;

/// The text, where it is plainly the choice's: strings and nothing that is reckoned out.
pub fn text(image: &Image<'_>, choice: u32) -> Option<String> {
    let view = image.node(choice)?;
    let Kind::Choice { flags, .. } = view.kind else { return None };
    let mut strings = strings_made(image, &evaluated(image, view.parent?, view.place?)?).into_iter();
    let mut text = String::new();
    for content in [START_CONTENT, CHOICE_ONLY_CONTENT] {
        if flags & content != 0 {
            text += &strings.next()??;
        }
    }
    Some(text.trim().to_owned()).filter(|text| !text.is_empty())
}

/// What stands from an `ev` to its `/ev`, the latter just in front of a choice. Nothing if another choice comes between: so
/// each node is looked at for one choice only.
fn evaluated<'a>(image: &Image<'a>, container: u32, place: u32) -> Option<Vec<Kind<'a>>> {
    let (mut kinds, mut open) = (vec![], 0);
    for place in (0..place).rev() {
        let kind = image.node(image.child(container, place)?)?.kind;
        match kind {
            Kind::Choice { .. } => return None,
            Kind::Command("/ev") => open += 1,
            _ if open == 0 => return None,
            Kind::Command("ev") => open -= 1,
            _ => {}
        }
        kinds.push(kind);
        if open == 0 {
            kinds.reverse();
            return Some(kinds);
        }
    }
    None
}

/// The strings that are made, those in others left out; of one that is not plain nothing.
fn strings_made(image: &Image<'_>, kinds: &[Kind<'_>]) -> Vec<Option<String>> {
    let (mut strings, mut open, mut start) = (vec![], 0, 0);
    for (place, kind) in kinds.iter().enumerate() {
        match kind {
            Kind::Command("str") => {
                open += 1;
                start = if open == 1 { place + 1 } else { start };
            }
            Kind::Command("/str") if open > 0 => {
                open -= 1;
                if open == 0 {
                    strings.push(plain(image, &kinds[start..place]));
                }
            }
            _ => {}
        }
    }
    strings
}

/// The text of strings alone, or of the container to which a divert leads; the mark where it comes back is a container.
fn plain(image: &Image<'_>, kinds: &[Kind<'_>]) -> Option<String> {
    match kinds {
        [Kind::Divert(divert)] | [Kind::Divert(divert), Kind::Container { .. }] => content(image, divert.target?),
        kinds => joined(kinds),
    }
}

/// The text of a container that ends with the divert back; of a small one, since many choices may share it.
fn content(image: &Image<'_>, container: u32) -> Option<String> {
    let mut kinds = vec![];
    for child in (0..=MOST_PARTS).map_while(|index| image.child(container, index)) {
        kinds.push(image.node(child)?.kind);
    }
    if kinds.len() > MOST_PARTS as usize {
        return None;
    }
    if let Some(Kind::Divert(divert)) = kinds.last() {
        // back to where it was read
        divert.variable?;
        kinds.pop();
    }
    joined(&kinds)
}

fn joined(kinds: &[Kind<'_>]) -> Option<String> {
    let mut text = String::new();
    for kind in kinds {
        let Kind::String(part) = kind else { return None };
        text += part;
    }
    Some(text)
}
