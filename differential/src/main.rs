//! Compares the verified story-image library with the published Rust on generated images and drafts. The script `run`
//! says how to call it.

mod asked;
mod bench;
mod corpus;
mod damage;
mod depths;
mod drafts;
#[cfg(feature = "ours")]
mod explain;
mod guide;
mod images;
mod library;
mod lists;
// the wrapper's own file: without our library there is no wrapper
#[allow(dead_code)]
#[path = "../../bindings/rust/src/names.rs"]
mod names;
#[cfg(feature = "ours")]
mod ours;
mod pages;
mod parts;
mod path_index;
mod progress;
mod published;
mod queries;
mod random;
mod record;
mod recorded;
mod rows;
mod run;
mod samples;
mod searched;
mod sleeper;
mod small;
mod stories;
mod strange;
mod tally;
mod target_counts;
mod targets;
mod technician;
mod texts;
mod writes;
mod wrong;

use library::Library;
use std::process::ExitCode;

#[cfg(feature = "ours")]
const OURS: Option<&dyn Library> = Some(&ours::Ours);
#[cfg(not(feature = "ours"))]
const OURS: Option<&dyn Library> = None;

fn main() -> ExitCode {
    let arguments: Vec<String> = std::env::args().skip(1).collect();
    match called(&arguments) {
        Ok(failed) => ExitCode::from(u8::from(failed)),
        Err(why) => {
            eprintln!("differential/run: {why}; see differential/run --help");
            ExitCode::from(2)
        }
    }
}

/// Does what the words ask for: whether something failed, or what is wrong with the words.
fn called(words: &[String]) -> Result<bool, String> {
    let words: Vec<&str> = words.iter().map(String::as_str).collect();
    match words[..] {
        ["self-check", ref rest @ ..] => Ok(run::self_check(numbers(rest, [2000])?[0])),
        ["bench", seconds, words] => Ok(bench::run(numbers(&[seconds], [4])?[0], words)),
        ["bench", ref rest @ ..] => Ok(bench::run(numbers(rest, [4])?[0], "")),
        ["explain", ref rest @ ..] => {
            let [cases, seed] = numbers(rest, [100_000, 1])?;
            explained(cases, seed)
        }
        ["samples", folder] => Ok(samples::run(folder)),
        ["replay", file] => Ok(record::run(file)),
        ["samples" | "replay", ..] => Err(format!("'{}' takes one name", words[0])),
        ref rest => {
            let [cases, seed] = numbers(rest, [100_000, 1])?;
            Ok(run::compare(cases, seed, OURS))
        }
    }
}

#[cfg(feature = "ours")]
fn explained(cases: u64, seed: u64) -> Result<bool, String> {
    Ok(explain::run(cases, seed))
}

#[cfg(not(feature = "ours"))]
fn explained(_: u64, _: u64) -> Result<bool, String> {
    Err("'explain' needs our static libraries (tools/build library)".to_owned())
}

/// The words as numbers, in the place of the given ones.
fn numbers<const N: usize>(words: &[&str], mut numbers: [u64; N]) -> Result<[u64; N], String> {
    for (k, word) in words.iter().enumerate() {
        let place = numbers.get_mut(k).ok_or_else(|| format!("'{word}' is one word too many"))?;
        *place = word.replace('_', "").parse().map_err(|_| format!("'{word}' is no known word and no number"))?;
    }
    Ok(numbers)
}
