//! Samples of the repository, loaded; work words; numbers and their words.

use story_image::{Image, Refusal, Section, ffi, load_words};

const SMALLEST: &[u8] = include_bytes!("../../../samples/smallest.image");
const FORMAT: &str = include_str!("../../../docs/FORMAT.md");
const README: &str = include_str!("../../../README.md");
const HEADER: &str = include_str!("../../../include/story_image_numbers.h");

fn refusal(bytes: &[u8], words: usize) -> Option<Refusal> {
    Image::load(bytes, &mut vec![0; words]).err()
}

#[test]
fn accepted() {
    let mut work = vec![7; load_words(SMALLEST) + 1];
    let image = Image::load(SMALLEST, &mut work).unwrap();
    assert_eq!(work, [0, 0, 7]);
    assert_eq!(image.view().ink_version, 21);
    assert_eq!(image.view().nodes, Section { offset: 88, count: 1 });
    assert_eq!(image.view().strings, Section { offset: 140, count: 0 });
    assert_eq!(image.bytes(), SMALLEST);
}

#[test]
fn refused() {
    assert_eq!(refusal(&SMALLEST[..87], 2), Some(Refusal::BAD_HEADER));
    assert_eq!(refusal(&SMALLEST[..139], 2), Some(Refusal::BAD_LENGTH));
    assert_eq!(refusal(SMALLEST, 1), Some(Refusal::TOO_FEW_WORDS));
}

/// Every sample of samples/README.md, with no more work words than `load_words` says.
#[test]
fn samples() {
    let folder = concat!(env!("CARGO_MANIFEST_DIR"), "/../../samples/");
    let table = std::fs::read_to_string(format!("{folder}README.md")).unwrap();
    let rows: Vec<Vec<&str>> = table
        .lines()
        .filter(|line| line.starts_with("| `"))
        .map(|line| line.split('|').map(|cell| cell.trim().trim_matches('`')).collect())
        .collect();
    assert!(rows.len() >= 20);
    for row in rows {
        let bytes = std::fs::read(format!("{folder}{}", row[1])).unwrap();
        let mut work = vec![0; load_words(&bytes)];
        let answer = match Image::load(&bytes, &mut work) {
            Ok(image) => format!("ok {} {}", image.view().ink_version, image.node_count()),
            Err(refusal) => format!("no {}", refusal.number()),
        };
        assert_eq!(answer, row[3], "{}", row[1]);
    }
}

#[test]
fn work_words() {
    // a header that asks for more words than the machine has
    let mut hostile = [255; 88];
    hostile[..8].copy_from_slice(b"BLINKIMG");
    assert_eq!(load_words(&hostile), 0);
    assert_eq!(load_words(&[0; 87]), 0);
    assert_eq!(load_words(SMALLEST), 2);
    // one word fewer than is said is not enough
    for file in ["guide", "step", "largest"] {
        let bytes = std::fs::read(format!("{}/../../samples/{file}.image", env!("CARGO_MANIFEST_DIR"))).unwrap();
        let words = load_words(&bytes);
        assert!(words <= bytes.len() / 4);
        assert_eq!(refusal(&bytes, words), None);
        assert_eq!(refusal(&bytes, words - 1), Some(Refusal::TOO_FEW_WORDS));
    }
}

#[test]
fn short_view() {
    let (mut work, mut view) = ([5; 2], [5; 16]);
    // SAFETY: the slices live through the call and do not overlap.
    let number = unsafe {
        ffi::story_image_load(SMALLEST.as_ptr(), SMALLEST.len(), work.as_mut_ptr(), 2, view.as_mut_ptr(), 16)
    };
    assert_eq!((number, work, view), (7, [5; 2], [5; 16]));
    // SAFETY: as above.
    let whole = |words: usize| unsafe { ffi::story_image_view_whole(view.as_ptr(), words) };
    assert!(!whole(16) && !whole(0));
    // SAFETY: as above.
    assert!(unsafe { ffi::story_image_view_whole([0; 17].as_ptr(), 17) });
}

/// The words are those of README's table, FORMAT has as many rows, and the header has the same names.
#[test]
fn words_of_numbers() {
    assert_eq!((Refusal(0).words(), Refusal(28).words()), ("", ""));
    // rows before it number commands and operators
    let table = FORMAT.split("\n## Numbers\n").nth(1).unwrap();
    for number in 1..=27 {
        let words = Refusal(number).words();
        assert!(README.contains(&format!("| {number} | {} |\n", words.replace("BLINKIMG", "`BLINKIMG`"))), "{words}");
        assert!(table.contains(&format!("\n| {number} | ")), "FORMAT has no row {number}");
    }
    for (name, refusal) in [
        ("BAD_HEADER", Refusal::BAD_HEADER),
        ("BAD_CHECKSUM", Refusal::BAD_CHECKSUM),
        ("LEFT_OVER", Refusal::LEFT_OVER),
        ("NOT_FOUND", Refusal::NOT_FOUND),
        ("DRAFT_SHAPE", Refusal::DRAFT_SHAPE),
        ("NO_ROOM", Refusal::NO_ROOM),
        ("TOO_FEW_SLOTS", Refusal::TOO_FEW_SLOTS),
        ("NO_TARGET", Refusal::NO_TARGET),
        ("NO_CONTAINER", Refusal::NO_CONTAINER),
        ("BAD_SUMMARY", Refusal::BAD_SUMMARY),
    ] {
        assert!(HEADER.contains(&format!("STORY_IMAGE_{name} = {}", refusal.number())), "{name}");
    }
}
