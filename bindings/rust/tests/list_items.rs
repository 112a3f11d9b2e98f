//! List items by name: answers, and how many definitions' items were searched.

use story_image::raw::Queries;
use story_image::{DraftBuilder, Image, ItemSearch, ListItem, NONE, Room, Section, View, ffi, load_words};

const SMALLEST: &[u8] = include_bytes!("../../../samples/smallest.image");
const STEP: &[u8] = include_bytes!("../../../samples/step.image");
const GUIDE: &[u8] = include_bytes!("../../../samples/guide.image");

/// Name and items of a definition, in text order.
type List<'a> = (&'a str, &'a [(&'a str, i32)]);

const TWO_LISTS: [List<'_>; 2] = [("red", &[("high", 4), ("low", 1)]), ("size", &[("low", 2), ("wide", -1)])];

/// The image of these definitions, with no node but the root.
fn written(lists: &[List<'_>]) -> Vec<u8> {
    let room = Room {
        nodes: &mut [0; 10],
        definitions: &mut [0; 240],
        items: &mut [0; 3603],
        strings: &mut [0; 4000],
        ..Room::default()
    };
    let mut draft = DraftBuilder::new(room).unwrap();
    for (name, items) in lists {
        draft.definition(name, items).unwrap();
    }
    let draft = draft.finish();
    let mut work = vec![0; draft.work_words()];
    let mut output = vec![0; draft.image_length(21, &mut work).unwrap()];
    draft.write(21, &mut work, &mut output).unwrap();
    output
}

fn image(bytes: &[u8]) -> Image<'_> {
    Image::load(bytes, &mut vec![0; load_words(bytes)]).unwrap()
}

/// Definition, item among all, value; then the definitions searched.
fn found(definition: u32, item: u32, value: i32, searched: u32) -> ItemSearch {
    ItemSearch { item: Some(ListItem { definition, item, value }), searched }
}

fn missed(searched: u32) -> ItemSearch {
    ItemSearch { item: None, searched }
}

/// An image, the same by its places, and the names of what was found.
fn look_up(image: &Image<'_>, rows: &[(&str, ItemSearch)]) {
    for (name, due) in rows {
        let search = image.list_item(name);
        assert_eq!(search, *due, "{name:?}");
        assert_eq!(image.raw().list_item(name.as_bytes()), *due, "{name:?}");
        if let Some((definition, item)) = search.item.and_then(|item| image.list_item_names(item)) {
            assert!(*name == item || *name == format!("{definition}.{item}"), "{name:?}");
        }
    }
}

/// Bytes that need not be accepted, under the view.
fn look_up_raw(asked: &Queries<'_>, rows: &[(&str, ItemSearch)]) {
    for (name, due) in rows {
        assert_eq!(asked.list_item(name.as_bytes()), *due, "{name:?}");
    }
}

#[test]
fn two_lists() {
    let bytes = written(&TWO_LISTS);
    let image = image(&bytes);
    look_up(
        &image,
        &[
            ("low", found(1, 2, 2, 1)),
            ("wide", found(1, 3, -1, 1)),
            ("high", found(0, 0, 4, 2)),
            ("red.low", found(0, 1, 1, 1)),
            ("size.low", found(1, 2, 2, 1)),
            // no such item: every definition, or the one named before the dot
            ("mid", missed(2)),
            ("red", missed(2)),
            (" low", missed(2)),
            ("size.high", missed(1)),
            ("red.low ", missed(1)),
            // no such definition
            ("no.low", missed(0)),
            ("re.low", missed(0)),
            ("low.red", missed(0)),
        ],
    );
    let low = image.list_item("low").item.unwrap();
    assert_eq!(image.list_item_names(low), Some(("size", "low")));
}

/// Names that are empty or blank, that begin or end with a dot or have two, that are not UTF-8.
#[test]
fn strange_names() {
    let bytes = written(&TWO_LISTS);
    let image = image(&bytes);
    for blank in ["", " ", " \t\u{3000}", "\n\u{b}\u{c}\r\u{85}\u{a0}\u{1680}\u{2028}"] {
        look_up(&image, &[(blank, missed(0))]);
    }
    for no_definition in [".", "..", " . ", ".x", ".low", "x.", "low.", "\u{3000}.low"] {
        look_up(&image, &[(no_definition, missed(0))]);
    }
    for no_item in ["red.", "red. ", "red..low", "red.low.", "red.size.low"] {
        look_up(&image, &[(no_item, missed(1))]);
    }
    // no White_Space; a part of U+3000
    assert_eq!(image.list_item("\u{200b}"), missed(2));
    assert_eq!(image.list_item(b"\xe3\x80"), missed(2));
    assert_eq!(image.list_item(b" \xff"), missed(2));
    assert_eq!(image.list_item(b"red.\xff"), missed(1));
    assert_eq!(image.list_item(b"\xff.low"), missed(0));
}

/// Definitions with the empty name, with a dot in it, without items; items with the empty name and with a dot in it.
#[test]
fn strange_lists() {
    let bytes = written(&[("", &[("", 3), ("x", 4)]), ("a", &[("b.c", 5)]), ("a.b", &[("c", 6)]), ("e", &[])]);
    look_up(
        &image(&bytes),
        &[
            ("", missed(0)),
            (" ", missed(0)),
            (".", found(0, 0, 3, 1)),
            (".x", found(0, 1, 4, 1)),
            (".c", missed(1)),
            ("x", found(0, 1, 4, 4)),
            ("x.", missed(0)),
            ("c", found(2, 3, 6, 2)),
            ("a.b.c", found(1, 2, 5, 1)),
            ("b.c", missed(0)),
            ("a.c", missed(1)),
            ("e.x", missed(1)),
            ("e.", missed(1)),
            ("y", missed(4)),
        ],
    );
    look_up(&image(SMALLEST), &[("low", missed(0)), ("red.low", missed(0)), (".", missed(0)), ("", missed(0))]);
}

/// Sixty definitions of twenty items, of which one, if there is one of that number, has the item special too.
fn sixty(special: usize) -> Vec<u8> {
    let names: Vec<String> = (0..60).map(|d| format!("d{d:02}")).collect();
    let items: Vec<String> = (0..20).map(|j| format!("i{j:02}")).collect();
    let values: Vec<_> = (0..).zip(&items).map(|(value, name)| (name.as_str(), value)).collect();
    let more = [&values[..], &[("special", 7777)]].concat();
    let list = |(d, name)| -> List<'_> { (name, if d == special { &more } else { &values }) };
    written(&names.iter().map(String::as_str).enumerate().map(list).collect::<Vec<_>>())
}

#[test]
fn sixty_definitions() {
    for d in 0..60 {
        let bytes = sixty(d as usize);
        let (image, last) = (image(&bytes), if d == 59 { 1180 } else { 1181 });
        let full = format!("d{d:02}.special");
        look_up(
            &image,
            &[
                ("special", found(d, 20 * d + 20, 7777, 60 - d)),
                (&full, found(d, 20 * d + 20, 7777, 1)),
                ("i03", found(59, last + 3, 3, 1)),
                ("zz.i03", missed(0)),
                ("zz", missed(60)),
            ],
        );
    }
    let bytes = sixty(60);
    look_up(
        &image(&bytes),
        &[
            ("special", missed(60)),
            ("d00.special", missed(1)),
            ("d07.i03", found(7, 143, 3, 1)),
            ("d60.i03", missed(0)),
        ],
    );
}

/// Every item of the samples: with its definition's name, and alone, where the last definition that has it answers.
#[test]
fn samples() {
    for image in [image(STEP), image(GUIDE)] {
        let count = image.definition_count();
        assert_eq!(count, 2);
        for d in 0..count {
            for (name, value) in image.definition_items(d) {
                let full = image.list_item(format!("{}.{name}", image.definition(d).unwrap().name));
                assert_eq!((full.item.unwrap().value, full.searched), (value, 1));
                let holds = |d: &u32| image.definition_items(*d).any(|item| item.0 == name);
                let last = (0..count).rev().find(holds).unwrap();
                let alone = image.list_item(name);
                assert_eq!((alone.item.unwrap().definition, alone.searched), (last, count - last));
            }
        }
        assert_eq!(image.list_item("no such item"), missed(count));
    }
}

/// Sets two words of a definition: from word 0 on the place of its name, from word 2 on first item and number of items.
fn set_definition(bytes: &mut [u8], view: View, definition: u32, word: u32, pair: [u32; 2]) {
    let at = (view.definitions.offset + 16 * definition + 4 * word) as usize;
    bytes[at..at + 8].copy_from_slice(pair.map(u32::to_le_bytes).as_flattened());
}

/// Both definitions are named size, which no load accepts: the last decides.
#[test]
fn equal_names() {
    let mut bytes = written(&TWO_LISTS);
    let view = image(&bytes).view();
    let size = image(&bytes).raw().definition(1).unwrap().name;
    set_definition(&mut bytes, view, 0, 0, [size.offset, size.length]);
    assert!(Image::load(&bytes, &mut vec![0; load_words(&bytes)]).is_err());
    look_up_raw(
        &Queries::new(&bytes, view),
        &[
            ("size.low", found(1, 2, 2, 1)),
            ("size.high", missed(1)),
            ("red.low", missed(0)),
            ("high", found(0, 0, 4, 2)),
            ("low", found(1, 2, 2, 1)),
            ("mid", missed(2)),
        ],
    );
}

/// A name that is not in the strings is empty.
#[test]
fn names_outside() {
    let mut bytes = written(&TWO_LISTS);
    let view = image(&bytes).view();
    for place in [[view.strings.count, 1], [0, NONE], [NONE, NONE]] {
        set_definition(&mut bytes, view, 1, 0, place);
        look_up_raw(
            &Queries::new(&bytes, view),
            &[
                (".low", found(1, 2, 2, 1)),
                (".high", missed(1)),
                ("size.low", missed(0)),
                ("low", found(1, 2, 2, 1)),
                ("", missed(0)),
            ],
        );
    }
}

/// A definition whose items are not all there is searched, and holds none.
#[test]
fn items_outside() {
    let mut bytes = written(&TWO_LISTS);
    let view = image(&bytes).view();
    for range in [[2, 3], [3, 2], [4, 1], [NONE, 1], [2, NONE], [NONE, NONE]] {
        set_definition(&mut bytes, view, 1, 2, range);
        look_up_raw(
            &Queries::new(&bytes, view),
            &[("low", found(0, 1, 1, 2)), ("wide", missed(2)), ("size.low", missed(1)), ("red.low", found(0, 1, 1, 1))],
        );
    }
    // a section that is not inside the bytes is empty
    set_definition(&mut bytes, view, 1, 2, [2, 2]);
    let outside = Section { offset: NONE, count: 2 };
    let asked = Queries::new(&bytes, View { items: outside, ..view });
    look_up_raw(&asked, &[("low", missed(2)), ("size.low", missed(1)), ("no.low", missed(0))]);
    let asked = Queries::new(&bytes, View { definitions: outside, ..view });
    look_up_raw(&asked, &[("low", missed(0)), ("size.low", missed(0))]);
    let asked = Queries::new(&bytes, View { strings: outside, ..view });
    look_up_raw(&asked, &[("low", missed(2)), ("size.low", missed(0)), (".low", missed(1))]);
}

/// Number, answer and count of a look-up with so many words of a view, of an answer and for the count. Words to which
/// nothing was written hold 5.
fn lent(name: &str, view: usize, answer: usize, searched: usize) -> (u32, [u32; 4], [u32; 2]) {
    let bytes = written(&TWO_LISTS);
    let (words, mut answers, mut counts) = (image(&bytes).view().words(), [5; 4], [5; 2]);
    assert!(view <= words.len() && answer <= answers.len() && searched <= counts.len());
    // SAFETY: the slices live through the call, and answers and counts, which alone are written, are ours.
    let number = unsafe {
        ffi::story_image_find_list_item(
            bytes.as_ptr(),
            bytes.len(),
            words.as_ptr(),
            view,
            name.as_ptr(),
            name.len(),
            answers.as_mut_ptr(),
            answer,
            counts.as_mut_ptr(),
            searched,
        )
    };
    (number, answers, counts)
}

/// What is not lent stays.
#[test]
fn words_lent() {
    for searched in 0..3 {
        let count = |due| if searched > 0 { [due, 5] } else { [5, 5] };
        for answer in 0..5 {
            assert_eq!(lent("low", 16, answer, searched), (18, [5; 4], [5; 2]));
            assert_eq!(lent("mid", 17, answer, searched), (18, [5; 4], count(2)));
            assert_eq!(lent("no.low", 17, answer, searched), (18, [5; 4], count(0)));
            let due = if answer < 3 { (18, [5; 4]) } else { (0, [0, 0, 4, 5]) };
            assert_eq!(lent("high", 17, answer, searched), (due.0, due.1, count(2)));
        }
    }
}
