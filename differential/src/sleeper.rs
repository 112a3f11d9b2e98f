//! The sleeper's reader, which the published Rust does not have. Notes are put into an accepted image, and a second
//! image is made of it that differs only in what notes hold after `tech:` and in where texts lie: both give the
//! sleeper's reader the same answers, which are what the published Rust shows but for notes. Of images that are refused
//! after their header, and of any bytes under any view, the answers are those of our technician's calls.

mod calls;
pub mod met;
mod notes;
mod questions;
mod references;
pub mod seen;

use crate::damage;
use crate::images;
use crate::library::sleeper::{Answer, Sleeper, VIEW_WORDS, Which, sleeper_view};
use crate::library::{Library, View, header_view, load_words};
use crate::parts::{ENTRY_SIZES, HEADER};
use crate::path_index;
use crate::random::Random;
use crate::stories::edge;
use crate::tally::Tally;
use crate::technician::{self, Technician, Theirs};
use calls::{Copied, Load, rooms};
use met::Asked;
use notes::Story;
use questions::Questions;
use seen::Seen;

/// Accepted images that have all sorts of nodes: each is made into a pair.
const STORIES: [&str; 2] = ["story", "written by us"];

/// Of the others one in so many: members of families have few nodes.
const OTHERS: usize = 12;

/// An image, what is due of it, and our reader of it.
struct Side<'a> {
    bytes: &'a [u8],
    seen: Seen<'a>,
    reader: Option<Box<dyn Sleeper + 'a>>,
}

impl<'a> Side<'a> {
    fn new(bytes: &'a [u8], technician: &'a dyn Technician, ours: Option<&'a dyn Library>) -> Self {
        Side { bytes, seen: Seen::new(technician), reader: ours.and_then(|ours| ours.sleeper(bytes)) }
    }
}

/// Makes a pair of an accepted image. The random numbers are those of a copy, so that the cases of a seed are the same
/// with and without pairs.
pub fn accepted(name: &str, bytes: &[u8], ours: Option<&dyn Library>, random: &Random, tally: &mut Tally) {
    let random = &mut random.clone();
    let without = ours.is_some_and(|ours| ours.sleeper(bytes).is_none());
    if without || !STORIES.contains(&name) && !random.once_in(OTHERS) {
        return;
    }
    let story = Story::noted(bytes, random);
    let other = story.another(random);
    met::pair(&story, &other, tally);
    let (one, another) = (story.parts.bytes(), other.parts.bytes());
    let rows = [&one, &another].map(|bytes| path_index::row(bytes));
    tally.check(rows == [0, 0], || format!("images with notes: {rows:?} by the published Rust"), &one);
    if let (Ok(image), Ok(second)) = (reference::load(&one), reference::load(&another)) {
        let (theirs, of_second) = (Theirs::new(&image, &one), Theirs::new(&second, &another));
        let sides = [Side::new(&one, &theirs, ours), Side::new(&another, &of_second, ours)];
        pair(&sides, ours, random, tally);
    }
    if let Some(ours) = ours.filter(|ours| ours.answers_all()) {
        damaged(&damage::random(&story.parts, random).1, ours, random, tally);
        other_view(&one, ours, random, tally);
    }
}

/// Two images that no sleeper tells apart: loads, then every call.
fn pair(sides: &[Side<'_>; 2], ours: Option<&dyn Library>, random: &mut Random, tally: &mut Tally) {
    let view = sleeper_view(sides[0].bytes);
    let past = random.below(3);
    for side in sides {
        let loaded = ours.map_or(0, |ours| ours.load(side.bytes, &mut vec![0; load_words(side.bytes)]).0);
        tally.check(loaded == 0, || format!("an image with notes: {loaded} by our load"), side.bytes);
        // of the first image for both
        load(side, sides[0].bytes, 0, past, tally);
        images::header(side.bytes, ours, tally);
    }
    let questions = Questions::of(sides[0].seen.technician, view[1], view[5], random);
    all(sides, &view, &questions, Asked::Pairs, tally);
    short_view(&sides[0], &view[..random.below(VIEW_WORDS)], &questions, random, tally);
}

/// Loads with enough words, with one too few, and into a view that is too short; as those of an image with this row. A
/// header that is refused needs no words.
fn load(side: &Side<'_>, due_of: &[u8], row: u32, past: usize, tally: &mut Tally) {
    let Some(reader) = side.reader.as_deref() else {
        return;
    };
    let needed = if (1..=5).contains(&row) { 0 } else { load_words(due_of) };
    let words = reader.load_words();
    tally.check(words == needed, || format!("sleeper's load: {needed} words due, ours {words}"), side.bytes);
    let enough = [needed + past, VIEW_WORDS + past];
    for lent in [enough, [needed.saturating_sub(1), VIEW_WORDS], [needed, VIEW_WORDS - 1 - past]] {
        let (due, ours) = (Load::due(due_of, row, needed, lent), Load::of(reader, lent));
        tally.check(ours == due, || format!("sleeper's load: due {due:?}, ours {ours:?}"), side.bytes);
    }
}

/// All questions to one image, or to two that answer alike.
fn all(sides: &[Side<'_>], view: &[u32], questions: &Questions, asked: Asked, tally: &mut Tally) {
    for ask in &questions.asks {
        let due = sides[0].seen.answer(ask);
        if let [one, another] = sides {
            tally.query(ask.name(), &(due.number == 0).then_some(()));
            let shown = another.seen.answer(ask);
            tally.check(shown == due, || format!("{ask:?}: shown {due:?}, of another {shown:?}"), one.bytes);
        }
        for (side, reader) in sides.iter().filter_map(|side| Some((side, side.reader.as_deref()?))) {
            let ours = calls::ask(reader, view, ask);
            tally.check(ours == due, || format!("{ask:?}: due {due:?}, ours {ours:?}"), side.bytes);
            met::answer(asked, due.number, tally);
        }
    }
    for which in &questions.texts {
        let due = sides[0].seen.text(*which);
        if let [one, another] = sides {
            tally.query("sleeper's text", &due);
            let shown = another.seen.text(*which);
            tally.check(shown == due, || format!("{which:?}: shown {due:?}, of another {shown:?}"), one.bytes);
        }
        sides.iter().for_each(|side| copies(side, view, *which, due.as_deref(), asked, tally));
    }
}

/// Copies of a text, with all sorts of room.
fn copies(side: &Side<'_>, view: &[u32], which: Which, text: Option<&[u8]>, asked: Asked, tally: &mut Tally) {
    let Some(reader) = side.reader.as_deref() else {
        return;
    };
    for room in rooms(text) {
        let (due, ours) = (Copied::due(text, room), Copied::of(reader, view, which, room));
        tally.check(ours == due, || format!("{which:?}, {room:?}: due {due:?}, ours {ours:?}"), side.bytes);
        met::answer(asked, due.number, tally);
    }
}

/// Under too few words of a view every call gives 18 and writes nothing.
fn short_view(side: &Side<'_>, view: &[u32], questions: &Questions, random: &mut Random, tally: &mut Tally) {
    let Some(reader) = side.reader.as_deref() else {
        return;
    };
    let (ask, which) = (random.pick(&questions.asks), *random.pick(&questions.texts));
    let ours = calls::ask(reader, view, ask);
    tally.check(ours == Answer::of::<0>(None), || format!("{ask:?} under a short view: {ours:?}"), side.bytes);
    copies(side, view, which, None, Asked::Pairs, tally);
}

/// A damaged image: the load; where it is refused after its header, the answers under the view that this makes.
fn damaged(bytes: &[u8], ours: &dyn Library, random: &mut Random, tally: &mut Tally) {
    let Some(queries) = ours.queries() else {
        return;
    };
    let (row, view) = (path_index::row(bytes), if bytes.len() < HEADER { [0; 17] } else { header_view(bytes) });
    let technician = technician::Ours { queries, bytes, view: &view };
    let side = Side::new(bytes, &technician, Some(ours));
    load(&side, bytes, row, random.below(3), tally);
    if row > 5 {
        let views = (0..view[2]).filter_map(|node| technician.node_view(node));
        met::refused(views.filter(|view| side.seen.hides(view)).count(), tally);
        let seen = sleeper_view(bytes);
        let right = placed(&seen, bytes.len())[1..] == view[1..];
        tally.check(right, || "the harness on places by a right header".to_owned(), bytes);
        by_calls(&side, &seen, &view, Asked::Refused, random, tally);
    }
}

/// Fewer bytes than the view's, or a view with another count: the answers by our technician's calls under the same view
/// with its places.
fn other_view(bytes: &[u8], ours: &dyn Library, random: &mut Random, tally: &mut Tally) {
    let Some(queries) = ours.queries() else {
        return;
    };
    let (mut view, mut bytes) = (sleeper_view(bytes), bytes);
    if random.once_in(2) {
        bytes = &bytes[..random.below(bytes.len())];
    } else {
        let count = &mut view[1 + random.below(VIEW_WORDS - 1)];
        let near = [count.wrapping_sub(1), *count + 1, 0, edge(random)];
        *count = *random.pick(&near);
    }
    let placed = placed(&view, bytes.len());
    let technician = technician::Ours { queries, bytes, view: &placed };
    by_calls(&Side::new(bytes, &technician, Some(ours)), &view, &placed, Asked::Other, random, tally);
}

/// Every call, as our technician's calls answer.
fn by_calls(side: &Side<'_>, view: &[u32], placed: &View, asked: Asked, random: &mut Random, tally: &mut Tally) {
    let questions = Questions::of(side.seen.technician, placed[2], placed[10], random);
    all(std::slice::from_ref(side), view, &questions, asked, tally);
}

/// The technician's view of so many bytes under a sleeper's: sections lie one behind the other, the strings are what is
/// left; where the sections do not fit, all are empty.
fn placed(view: &[u32; VIEW_WORDS], length: usize) -> View {
    let (mut placed, mut start) = ([0; 17], HEADER);
    for section in 0..7 {
        let count = view[1 + section];
        (placed[1 + 2 * section], placed[2 + 2 * section]) = (start as u32, count);
        start += count as usize * ENTRY_SIZES[section];
    }
    (placed[15], placed[16]) = (start as u32, length.wrapping_sub(start) as u32);
    if start > length {
        placed = [0; 17];
    }
    placed[0] = view[0];
    placed
}
