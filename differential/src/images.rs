//! One image: the load on both sides, then every query.

use crate::depths;
use crate::library::{Library, View, header_view, load_words};
use crate::pages;
use crate::parts::{HEADER, word_at};
use crate::path_index;
use crate::queries;
use crate::random::Random;
use crate::rows::row_of;
use crate::searched;
use crate::sleeper;
use crate::strange;
use crate::tally::Tally;
use crate::target_counts;
use reference::Image;

/// What the technician's calls tell of a header, as it is counted.
const HEADER_WORDS: [&str; 3] = ["total length", "strings length", "checksum"];

/// Work words hold this before a call.
pub const MARK: u32 = 0xa5a5_5a5a;

pub fn image(name: &'static str, bytes: &[u8], ours: Option<&dyn Library>, random: &mut Random, tally: &mut Tally) {
    let theirs = reference::load(bytes);
    let published = match &theirs {
        Ok(_) => 0,
        Err(reason) => {
            *tally.reasons.entry(reason.clone()).or_default() += 1;
            row_of(reason).expect("every reason has a row")
        }
    };
    let row = path_index::due(bytes, published, tally);
    tally.rows[row as usize] += 1;
    let made = tally.images.entry(name).or_default();
    made[0] += 1;
    made[1] += u64::from(row == 0);
    let view = ours.and_then(|ours| load(name, bytes, row, ours, random, tally));
    header(bytes, ours, tally);
    match theirs {
        Ok(image) => {
            if let (0, Some(view)) = (row, &view) {
                accepted(name, &image, bytes, view, tally);
            }
            read(&image, bytes, ours, view, random, tally);
            if row == 0 {
                sleeper::accepted(name, bytes, ours, random, tally);
            }
        }
        Err(_) if bytes.len() >= HEADER => refused(bytes, published, ours, random, tally),
        Err(_) => {}
    }
}

/// The three calls that tell of the header: its words, on any bytes that have one.
pub fn header(bytes: &[u8], ours: Option<&dyn Library>, tally: &mut Tally) {
    let due = [16, 80, 84].map(|at| Some(word_at(bytes.get(..HEADER)?, at)));
    for (name, word) in HEADER_WORDS.iter().zip(&due) {
        tally.query(name, word);
    }
    if let Some(ours) = ours.map(|ours| ours.header_words(bytes)) {
        tally.check(ours == due, || format!("{HEADER_WORDS:?}: due {due:x?}, ours {ours:x?}"), bytes);
    }
}

/// Queries on an image that the published Rust accepts. They ask for no acceptance: where its index gives 16 they are
/// compared all the same, under the view that its header makes.
fn read(
    image: &Image<'_>,
    bytes: &[u8],
    ours: Option<&dyn Library>,
    view: Option<View>,
    random: &mut Random,
    tally: &mut Tally,
) {
    let asked = ours.and_then(Library::queries).zip(view.as_ref());
    let counting = ours.filter(|_| view.is_some()).and_then(Library::counting);
    let views = depths::views(image);
    queries::all(image, &views, bytes, asked, random, tally);
    target_counts::accepted(bytes, &header_view(bytes), &views, counting, random, tally);
    if let Some((asked, view)) = asked.filter(|_| ours.is_some_and(Library::answers_all)) {
        let (damaged, other) = strange::damaged(bytes, view, random);
        strange::bytes(&damaged, &other, asked, random, tally);
        target_counts::strange(&damaged, &other, counting, random, tally);
        strange::asked(bytes, view, asked, random, tally);
    }
}

/// Queries that are told by words, on an image that the published Rust refuses, under the view that its header makes.
fn refused(bytes: &[u8], row: u32, ours: Option<&dyn Library>, random: &mut Random, tally: &mut Tally) {
    let view = &header_view(bytes);
    target_counts::strange(bytes, view, ours.and_then(Library::counting), random, tally);
    let ours = ours.and_then(Library::queries);
    let name = if row > 5 { "depth, refused image" } else { "depth, other view" };
    depths::strange(name, bytes, view, ours, tally);
    let asked = |names: [&'static str; 3]| {
        let name = names[if row > 5 { 1 } else { 2 }];
        pages::Asked { name, bytes, view, ours }
    };
    pages::strange(&asked(pages::NAMES), random, tally);
    searched::strange(&asked(searched::NAMES), random, tally);
}

/// An image that both sides accept: the view's words, and that the index names each container once.
fn accepted(name: &str, image: &Image<'_>, bytes: &[u8], view: &View, tally: &mut Tally) {
    let right = view[0] == image.ink_version() as u32 && view[1..] == header_view(bytes)[1..];
    tally.check(right, || format!("{name}: the view's words"), bytes);
    let once = path_index::names_each_once(bytes);
    tally.check(once, || format!("{name}: accepted, and the index does not name each container once"), bytes);
}

/// Our load: number, view, work words, image bytes. The view under which to ask, if the number is right.
fn load(
    name: &str,
    bytes: &[u8],
    row: u32,
    ours: &dyn Library,
    random: &mut Random,
    tally: &mut Tally,
) -> Option<View> {
    let words = if (1..=6).contains(&row) { random.below(4) } else { load_words(bytes) };
    let past = random.below(3);
    let mut work = vec![MARK; words + past];
    let before = bytes.to_vec();
    let (number, view) = ours.load(bytes, &mut work);
    tally.check(number == row, || format!("{name}: due {row}, ours {number}"), bytes);
    let kept = if (1..=6).contains(&row) { 0 } else { words };
    let right = work[..kept].iter().all(|word| *word == 0) && work[kept..].iter().all(|word| *word == MARK);
    tally.check(right, || format!("{name}: work words after {number}"), bytes);
    tally.check(before == bytes, || format!("{name}: the image was changed"), bytes);
    if kept > 0 {
        let mut few = vec![MARK; words - 1];
        let (number, _) = ours.load(bytes, &mut few);
        let untouched = few.iter().all(|word| *word == MARK);
        tally.check(number == 7 && untouched, || format!("{name}: {number} with a work word too few"), bytes);
    }
    match (number, row) {
        (0, 0) => Some(view),
        (16, 16) => Some(header_view(bytes)),
        _ => None,
    }
}
