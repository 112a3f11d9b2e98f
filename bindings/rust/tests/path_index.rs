//! The path index files each container under its canonical path, and under no other text: 16.

use story_image::*;

const ROOT: [u32; 10] = [NONE, NONE, 1, NONE, NONE, 0, 0, 0, 0, 0];

/// The checksum of IEEE 802.3, bit by bit, over all bytes but its own.
fn checksum(bytes: &[u8]) -> u32 {
    let step = |sum: u32| sum >> 1 ^ if sum & 1 == 1 { 0xedb8_8320 } else { 0 };
    let covered = bytes[..84].iter().chain(&bytes[88..]);
    !covered.fold(!0, |sum, byte| (0..8).fold(sum ^ u32::from(*byte), |sum, _| step(sum)))
}

fn put_words(bytes: &mut Vec<u8>, words: &[u32]) {
    bytes.extend(words.iter().flat_map(|word| word.to_le_bytes()));
}

/// Sections 0 to 2 of a draft, an index (text and node) and its texts, laid out as an image. The texts stand behind the
/// draft's strings.
fn laid_out(draft: &Draft<'_>, index: &[(&str, u32)]) -> Vec<u8> {
    let (mut entries, mut strings) = (vec![], draft.strings.to_vec());
    for (text, node) in index {
        entries.extend([strings.len() as u32, text.len() as u32, *node]);
        strings.extend_from_slice(text.as_bytes());
    }
    let sections: [(&[u32], usize); 6] =
        [(draft.nodes, 10), (draft.children, 1), (draft.named, 3), (&[], 4), (&[], 3), (&entries, 3)];
    let mut bytes = b"BLINKIMG".to_vec();
    put_words(&mut bytes, &[2, 21, 0]);
    let mut end = 88;
    for (words, entry) in sections {
        put_words(&mut bytes, &[end, (words.len() / entry) as u32]);
        end += 4 * words.len() as u32;
    }
    put_words(&mut bytes, &[end, 0, end, strings.len() as u32, 0]);
    for (words, _) in sections {
        put_words(&mut bytes, words);
    }
    bytes.extend_from_slice(&strings);
    let total = bytes.len() as u32;
    bytes[16..20].copy_from_slice(&total.to_le_bytes());
    let sum = checksum(&bytes);
    bytes[84..88].copy_from_slice(&sum.to_le_bytes());
    bytes
}

/// What a load says of a draft's sections with this index.
fn filed(draft: &Draft<'_>, index: &[(&str, u32)]) -> Result<(), Refusal> {
    let bytes = laid_out(draft, index);
    Image::load(&bytes, &mut vec![0; load_words(&bytes)]).map(|image| assert_eq!(image.bytes(), bytes))
}

const MISFIT: Result<(), Refusal> = Err(Refusal::BAD_INDEX);

#[test]
fn root() {
    let draft = Draft { nodes: &ROOT, ..Draft::default() };
    assert_eq!(filed(&draft, &[("", 0)]), Ok(()));
    assert_eq!(filed(&draft, &[(".", 0)]), MISFIT);
}

/// A nameless container in place 3.
#[test]
fn place() {
    let mut nodes = vec![NONE, NONE, 1, NONE, NONE, 0, 0, 4, 0, 0];
    for place in 0..3 {
        nodes.extend([0, place, 5, 0, 0, 0, 0, 0, 0, 0]);
    }
    nodes.extend([0, 3, 1, NONE, NONE, 0, 4, 0, 0, 0]);
    let draft = Draft { nodes: &nodes, children: &[1, 2, 3, 4], ..Draft::default() };
    assert_eq!(filed(&draft, &[("", 0), ("3", 4)]), Ok(()));
    for text in [".3", "..3", "03", "3.", "."] {
        assert_eq!(filed(&draft, &[("", 0), (text, 4)]), MISFIT, "{text}");
    }
}

/// A nameless container in place 0, and in it another.
#[test]
fn places() {
    let nodes = [ROOT, [0, 0, 1, NONE, NONE, 0, 1, 1, 0, 0], [1, 0, 1, NONE, NONE, 0, 2, 0, 0, 0]];
    let mut nodes = nodes.concat();
    nodes[7] = 1;
    let draft = Draft { nodes: &nodes, children: &[1, 2], ..Draft::default() };
    assert_eq!(filed(&draft, &[("", 0), ("0", 1), ("0.0", 2)]), Ok(()));
    assert_eq!(filed(&draft, &[("", 0), (".0.0", 2), ("0", 1)]), MISFIT);
    // two entries for one container, none for the other
    assert_eq!(filed(&draft, &[("", 0), (".0", 1), ("0", 1)]), MISFIT);
}

/// Containers of place NONE, which are only named children: one with a name is filed under it; without one, or with the
/// empty one, nothing fits it and what is below it, and the writer gives 22.
#[test]
fn no_place() {
    for (name, named) in [([0, 1], true), ([0, 0], false), ([NONE, NONE], false)] {
        for below in 0..2 {
            let mut nodes = ROOT.to_vec();
            nodes[9] = 1;
            nodes.extend([0, NONE, 1, name[0], name[1], 0, 0, below, 1, 0]);
            nodes.extend([1, 0, 1, NONE, NONE, 0, 1, 0, 1, 0]);
            let draft = Draft {
                nodes: &nodes[..20 + 10 * below as usize],
                children: &[2][..below as usize],
                named: &[0, 1, 1],
                strings: b"a",
                ..Draft::default()
            };
            let by_name = &[("", 0), ("a", 1), ("a.0", 2)][..2 + below as usize];
            let by_number = &[("", 0), ("4294967295", 1), ("4294967295.0", 2)][..2 + below as usize];
            assert_eq!(filed(&draft, by_name), if named { Ok(()) } else { MISFIT });
            assert_eq!(filed(&draft, by_number), MISFIT);
            if below == 1 {
                // the way is asked: what is behind the entry of the lower one would be 9
                let lower = if named { by_name[2] } else { by_number[2] };
                let due = if named { Err(Refusal::BAD_NODE) } else { MISFIT };
                assert_eq!(filed(&draft, &[("", 0), lower, ("a", NONE)]), due);
            }
            let written = draft.image_length(21, &mut vec![0; draft.work_words()]).map(|_| ());
            assert_eq!(written, if named { Ok(()) } else { Err(Refusal::DRAFT_PATHS) });
        }
    }
}
