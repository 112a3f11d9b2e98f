//! The table of commands, and the words behind a command.

use crate::call::Call;
use crate::commands::{self, COMMANDS};
use crate::end::Fault;
use std::ffi::OsString;
use std::os::unix::ffi::OsStringExt;

fn parse(command: &str, words: &[&str]) -> Result<Call, Fault> {
    let words: Vec<OsString> = words.iter().map(|word| word.into()).collect();
    Call::parse(commands::find(command).unwrap(), &words)
}

#[test]
fn options_stand_in_the_arguments() {
    let graph = commands::find("graph").unwrap();
    assert_eq!(graph.option("--all"), Some(false));
    assert_eq!(graph.option("-o"), Some(true));
    assert_eq!(graph.option("-x"), None);
    assert_eq!(graph.option(""), None);
    assert_eq!(commands::find("check").unwrap().option("-o"), None);
    for command in COMMANDS {
        assert_eq!(commands::find(command.name).unwrap().line, command.line);
        assert!(command.more.ends_with('\n'), "{}", command.name);
    }
}

#[test]
fn options_stand_anywhere() {
    let call = parse("graph", &["a", "--all", "-", "-o", "x", "b", "--", "--all", "-o"]).ok().unwrap();
    assert!(call.has("--all"));
    assert_eq!(call.value("-o"), Some("x".as_ref()));
    assert_eq!(call.rest, ["a", "-", "b", "--all", "-o"]);
}

#[test]
fn wrong_options_are_told() {
    let told = |command, words: &[&str]| parse(command, words).err().unwrap().0;
    assert_eq!(told("tree", &["--all"]), "--all: no such option; see story-image help tree");
    assert_eq!(told("tree", &["-o"]), "-o: nothing stands behind it; see story-image help tree");
    assert_eq!(told("graph", &["--all", "--all"]), "--all: given twice; see story-image help graph");
}

#[test]
fn words_need_not_be_unicode() {
    let words = [OsString::from_vec(vec![b'a', 255]), OsString::from_vec(vec![b'-', 255])];
    assert_eq!(Call::parse(commands::find("check").unwrap(), &words[..1]).ok().unwrap().rest, words[..1]);
    assert!(Call::parse(commands::find("check").unwrap(), &words).is_err());
}
