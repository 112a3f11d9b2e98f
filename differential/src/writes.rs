//! One draft: the writer on both sides.

use crate::drafts::{Case, Known};
use crate::images::{self, MARK};
use crate::library::{Library, Writer, write_words};
use crate::path_index;
use crate::random::Random;
use crate::rows::{breaks_draft, writer_row};
use crate::tally::Tally;
use reference::{Draft, Written};

pub fn draft(case: &Case, ours: Option<&dyn Library>, random: &mut Random, tally: &mut Tally) {
    *tally.drafts.entry(case.name).or_default() += 1;
    let theirs = reference::write(case.ink, &case.draft);
    let loads = matches!(&theirs, Written::Image(image) if path_index::row(image) == 0);
    let did = match &theirs {
        Written::Image(_) if loads => "written",
        Written::Image(_) => "written, refused by its own loader",
        Written::Refused(message) => message,
        Written::NoStory => "the tables make no story",
        Written::RunsOn => "not called: parents in a circle",
        Written::Panicked => "panicked",
    };
    *tally.written.entry(did.to_owned()).or_default() += 1;
    let broken = broken_by_loader(case);
    if broken {
        *tally.written.entry("(of all: broken by the loader's reason)".to_owned()).or_default() += 1;
    }
    let Some((writer, all)) = ours.and_then(|ours| ours.writer().map(|writer| (writer, ours.answers_all()))) else {
        return;
    };
    // the published writer has no 21, and may refuse such a draft for what its paths then are
    let numbered = loads || matches!(theirs, Written::Refused(_)) && case.known != Known::Number(21);
    if !all && (broken || !numbered) {
        return;
    }
    let number = match &theirs {
        Written::Image(image) if loads => {
            let (number, bytes) = written(case, image, writer, random, tally);
            if number == 0 {
                images::image("written by us", &bytes, ours, random, tally);
            }
            number
        }
        _ => refused(case, writer, tally),
    };
    *tally.numbers.entry(number).or_default() += 1;
    let right = !broken || number == 19;
    tally.check(right, || format!("draft {}: 19 by the loader's reason, ours {number}", case.name), &[]);
    let allowed: &[u32] = match &theirs {
        Written::Image(_) if loads && case.known == Known::Sound => &[0],
        Written::Image(_) if loads => &[0, 3, 19],
        Written::Image(_) | Written::RunsOn | Written::Panicked => &[3, 19, 20, 21, 22],
        Written::NoStory => &[3, 19],
        Written::Refused(message) => match writer_row(message) {
            Some(20) => &[3, 19, 20],
            Some(22) => &[3, 19, 21, 22],
            _ => &[],
        },
    };
    let known = match case.known {
        Known::Number(known) => number == known,
        Known::Refused => number != 0,
        Known::Sound | Known::Nothing => true,
    };
    let right = allowed.contains(&number) && known;
    tally.check(right, || format!("draft {}: known {:?}, they: {did}, ours {number}", case.name, case.known), &[]);
}

/// Whether the published loader refuses the same sections for a reason that means 19.
fn broken_by_loader(case: &Case) -> bool {
    let Some(image) = &case.image else {
        return false;
    };
    (18..=21).contains(&case.ink) && reference::load(image).is_err_and(|reason| breaks_draft(&reason))
}

/// A draft that the Rust writes: bytes, output's end, work words; then one byte and one word too few. The bytes that were written.
fn written(case: &Case, image: &[u8], ours: &dyn Writer, random: &mut Random, tally: &mut Tally) -> (u32, Vec<u8>) {
    let (words, past) = (write_words(&case.draft), random.below(3));
    let mut work = vec![MARK; words + past];
    let mut output = vec![0xa5; image.len() + random.below(20)];
    let (number, length) = ours.write(case.ink, &case.draft, &mut work, &mut output);
    if number != 0 {
        untouched(case, number, &work, &output, tally);
        return (number, vec![]);
    }
    let same = length == image.len() && output[..length] == *image;
    tally.check(same, || format!("draft {}: other bytes", case.name), image);
    let stays = output[length.min(output.len())..].iter().all(|byte| *byte == 0xa5);
    tally.check(stays, || format!("draft {}: bytes past the image", case.name), image);
    let zero = work[..words].iter().all(|word| *word == 0) && work[words..].iter().all(|word| *word == MARK);
    tally.check(zero, || format!("draft {}: work words", case.name), image);

    let bytes = output[..length.min(output.len())].to_vec();

    let mut short = vec![0xa5; image.len() - 1];
    let mut work = vec![MARK; words];
    let (number, needed) = ours.write(case.ink, &case.draft, &mut work, &mut short);
    let told = number == 23 && needed == image.len();
    let right = told && short.iter().all(|byte| *byte == 0xa5) && work.iter().all(|word| *word == 0);
    tally.check(right, || format!("draft {}: {number}, {needed} needed, with a byte too few", case.name), image);

    let mut few = vec![MARK; words - 1];
    let mut output = vec![0xa5; image.len()];
    let (number, _) = ours.write(case.ink, &case.draft, &mut few, &mut output);
    let right = number == 7 && output.iter().all(|byte| *byte == 0xa5) && few.iter().all(|word| *word == MARK);
    tally.check(right, || format!("draft {}: {number} with a work word too few", case.name), image);
    (0, bytes)
}

fn refused(case: &Case, ours: &dyn Writer, tally: &mut Tally) -> u32 {
    let mut work = vec![MARK; write_words(&case.draft)];
    let mut output = vec![0xa5; room(&case.draft)];
    let (number, _) = ours.write(case.ink, &case.draft, &mut work, &mut output);
    if number != 0 {
        untouched(case, number, &work, &output, tally);
    }
    // the same with no output at all; with a work word too few 7 comes before 20
    let mut work = vec![MARK; write_words(&case.draft)];
    let (again, _) = ours.write(case.ink, &case.draft, &mut work, &mut []);
    tally.check(again == number, || format!("draft {}: {number}, without output {again}", case.name), &[]);
    if (20..=22).contains(&number) {
        let mut few = vec![MARK; write_words(&case.draft) - 1];
        let (few, _) = ours.write(case.ink, &case.draft, &mut few, &mut []);
        tally.check(few == 7, || format!("draft {}: {few} with a work word too few", case.name), &[]);
    }
    number
}

fn room(draft: &Draft) -> usize {
    200 + 4 * (draft.nodes.len() + draft.children.len() + draft.named.len()) + draft.payload.len() + draft.strings.len()
}

fn untouched(case: &Case, number: u32, work: &[u32], output: &[u8], tally: &mut Tally) {
    let words = write_words(&case.draft);
    let kept = if [3, 7, 19].contains(&number) { 0 } else { words };
    let right = output.iter().all(|byte| *byte == 0xa5)
        && work[..kept].iter().all(|word| *word == 0)
        && work[kept..].iter().all(|word| *word == MARK);
    tally.check(right, || format!("draft {}: output or work words after {number}", case.name), &[]);
}
