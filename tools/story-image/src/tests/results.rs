//! Results that are files: whole or not there, and never one of the inputs.

use super::Folder;
use crate::inputs::{Identity, identity};
use crate::whole::Whole;
use std::fs;
use std::io::Write;
use std::os::unix::fs::{PermissionsExt, symlink};
use std::path::Path;

/// Writes a text to a file; the inputs are those that were read.
fn put(target: &Path, text: &str, inputs: &[Identity]) -> Result<(), String> {
    let mut file = Whole::create(target.as_os_str())?;
    file.write_all(text.as_bytes()).unwrap();
    file.finish(inputs)
}

fn names(folder: &Path) -> Vec<String> {
    let entries = fs::read_dir(folder).unwrap();
    let mut names: Vec<_> = entries.map(|entry| entry.unwrap().file_name().into_string().unwrap()).collect();
    names.sort();
    names
}

#[test]
fn a_file_is_made_and_replaced() {
    let folder = Folder::new("made");
    let file = folder.0.join("a");
    put(&file, "one", &[]).unwrap();
    fs::set_permissions(&file, fs::Permissions::from_mode(0o640)).unwrap();
    put(&file, "two", &[]).unwrap();
    assert_eq!(fs::read_to_string(&file).unwrap(), "two");
    assert_eq!(fs::metadata(&file).unwrap().permissions().mode() & 0o777, 0o640);
    assert_eq!(names(&folder.0), ["a"]);
}

#[test]
fn an_unfinished_file_leaves_nothing() {
    let folder = Folder::new("unfinished");
    let file = folder.0.join("a");
    fs::write(&file, "one").unwrap();
    let mut begun = Whole::create(file.as_os_str()).unwrap();
    begun.write_all(b"two").unwrap();
    assert_eq!(names(&folder.0).len(), 2);
    drop(begun);
    assert_eq!(names(&folder.0), ["a"]);
    assert_eq!(fs::read_to_string(&file).unwrap(), "one");
}

#[test]
fn an_input_stays_under_every_name() {
    let folder = Folder::new("input");
    let path = |name: &str| folder.0.join(name);
    fs::write(path("input"), "one").unwrap();
    fs::hard_link(path("input"), path("hard")).unwrap();
    symlink("input", path("soft")).unwrap();
    symlink(folder.0.join("hard"), path("soft-hard")).unwrap();
    let read = [identity(&fs::metadata(path("input")).unwrap())];
    fs::create_dir(path("deep")).unwrap();
    for name in ["input", "hard", "soft", "soft-hard", "deep/../input"] {
        assert!(put(&path(name), "two", &read).unwrap_err().ends_with(": is read too, and stays as it was"), "{name}");
    }
    assert_eq!(fs::read_to_string(path("input")).unwrap(), "one");
    assert_eq!(names(&folder.0), ["deep", "hard", "input", "soft", "soft-hard"]);
    put(&path("other"), "two", &read).unwrap();
}

#[test]
fn the_file_behind_a_link_is_replaced() {
    let folder = Folder::new("link");
    let path = |name: &str| folder.0.join(name);
    fs::create_dir(path("deep")).unwrap();
    fs::write(path("deep/file"), "one").unwrap();
    symlink("deep/file", path("link")).unwrap();
    put(&path("link"), "two", &[]).unwrap();
    assert!(fs::symlink_metadata(path("link")).unwrap().is_symlink());
    assert_eq!(fs::read_to_string(path("deep/file")).unwrap(), "two");
    assert_eq!(names(&path("deep")), ["file"]);
}

#[test]
fn only_regular_files_are_replaced() {
    let folder = Folder::new("regular");
    let path = |name: &str| folder.0.join(name);
    symlink("nothing", path("link")).unwrap();
    symlink("/dev/null", path("null")).unwrap();
    let told = |target: &Path| put(target, "", &[]).unwrap_err().rsplit(": ").next().unwrap().to_owned();
    assert_eq!(told(&folder.0), "is a directory");
    assert_eq!(told(Path::new("/dev/null")), "is no regular file");
    assert_eq!(told(&path("null")), "is no regular file");
    assert_eq!(told(&path("link")), "is a link to nothing");
    assert_eq!(told(Path::new("")), "an empty file name");
    assert!(put(&path("no/such/folder"), "", &[]).is_err());
    assert_eq!(names(&folder.0), ["link", "null"]);
}
