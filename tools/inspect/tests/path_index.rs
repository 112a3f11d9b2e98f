//! The place finder on the path index: one spelling a container, and none without a name or a place.

mod common;

use common::repair;
use inspect::rules::{Broken, first_broken};

const NONE: u32 = u32::MAX;

/// A container by its name and place; the next one is its named child.
type Container = (&'static str, u32);

/// The root and containers below each other, the index texts in the order of the nodes.
fn image(containers: &[Container], texts: &[&str]) -> Vec<u8> {
    let (mut strings, count) = (String::from("x"), containers.len() as u32);
    let mut put = |text: &str| {
        strings.push_str(text);
        [(strings.len() - text.len()) as u32, text.len() as u32]
    };
    let (mut nodes, mut named, mut index) = (vec![], vec![], vec![]);
    for (node, (name, place)) in (0..).zip([("", NONE)].iter().chain(containers)) {
        let parent = if node == 0 { NONE } else { node - 1 };
        let [at, length] = put(name);
        nodes.extend([parent, *place, 1, at, length, 0, 0, 0, node, u32::from(node < count)]);
        named.extend((node < count).then_some([0, 1, node + 1]).into_iter().flatten());
    }
    for (node, text) in (0..).zip(texts) {
        index.extend(put(text).into_iter().chain([node]));
    }
    let sections = [(&nodes, 10), (&vec![], 1), (&named, 3), (&vec![], 4), (&vec![], 3), (&index, 3), (&vec![], 1)];
    let (mut header, mut offset) = (vec![2, 21, 0], 88);
    for (words, size) in sections {
        header.extend([offset, words.len() as u32 / size]);
        offset += 4 * words.len() as u32;
    }
    header.extend([offset, strings.len() as u32, 0]);
    header[2] = offset + strings.len() as u32;
    let words = header.iter().chain(&nodes).chain(&named).chain(&index);
    let mut bytes = b"BLINKIMG".to_vec();
    bytes.extend(words.flat_map(|word| word.to_le_bytes()));
    bytes.extend(strings.bytes());
    repair(&mut bytes);
    bytes
}

fn broken(containers: &[Container], texts: &[&str]) -> Option<Broken> {
    first_broken(&image(containers, texts))
}

fn is_16(broken: Option<Broken>, rule: &str, because: &str) {
    let broken = broken.expect("a broken rule");
    assert_eq!((broken.number, broken.rule, &broken.because[..]), (16, rule, because));
}

#[test]
fn only_the_path_fits() {
    assert!(broken(&[("", 3)], &["", "3"]).is_none());
    assert!(broken(&[("a", 3), ("", 7)], &["", "a", "a.7"]).is_none());
    is_16(broken(&[("", 3)], &["", ".3"]), "fit of a path", r#"".3"; the path of node 1 is "3""#);
    is_16(broken(&[("", 3)], &["", "03"]), "fit of a path", r#""03"; the path of node 1 is "3""#);
    is_16(broken(&[("a", 3)], &["", ".a"]), "fit of a path", r#"".a"; the path of node 1 is "a""#);
    is_16(
        broken(&[("", 3), ("b", 0)], &["", "3", ".3.b"]),
        "order of the index",
        r#"".3.b" is not above "3", which stands before it"#,
    );
    is_16(broken(&[("", 3), ("b", 0)], &["", ".3", "3.b"]), "fit of a path", r#"".3"; the path of node 1 is "3""#);
    is_16(broken(&[], &["."]), "fit of a path", r#""."; the path of node 0 is """#);
}

#[test]
fn nothing_fits_without_a_name_or_a_place() {
    let because = |text: &str, which: &str| format!("\"{text}\"; node 1, {which}, has neither a name nor a place");
    let target = because("4294967295", "the target");
    is_16(broken(&[("", NONE)], &["", "4294967295"]), "name or place", &target);
    is_16(broken(&[("", NONE), ("b", 0)], &["", "4294967295", "4294967295.b"]), "name or place", &target);
    assert!(broken(&[("a", NONE)], &["", "a"]).is_none());
    assert!(broken(&[("a", NONE), ("", 0)], &["", "a", "a.0"]).is_none());
}

/// The lower entry stands first: what is on its way is seen from it.
#[test]
fn the_way_is_seen() {
    let mut bytes = image(&[("", NONE), ("b", 0)], &["", "4294967295", "4294967295.b"]);
    let at = u32::from_le_bytes(bytes[60..64].try_into().unwrap()) as usize;
    bytes[at + 12..at + 36].rotate_left(12);
    repair(&mut bytes);
    let because = r#""4294967295.b"; node 1, on the way to the target, has neither a name nor a place"#;
    is_16(first_broken(&bytes), "name or place", because);
}
