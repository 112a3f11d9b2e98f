//! `story-image COMMAND ..`: one program over the proved library; `story-image help` says how to call it.
//!
//! It stays thin: every number and answer comes from the library's calls. `commands` has the table of its commands.

mod call;
mod check;
mod choice;
mod commands;
mod depths;
mod each;
mod end;
mod explain;
mod graph;
mod help;
mod inputs;
mod json;
mod leads;
mod nesting;
mod paths;
mod targets;
mod tree;
mod whole;

#[cfg(test)]
mod tests;

use call::Call;
use end::{Fault, Status, say};
use std::ffi::OsString;
use std::process::ExitCode;

fn main() -> ExitCode {
    let words: Vec<_> = std::env::args_os().skip(1).collect();
    let status = run(&words).unwrap_or_else(|Fault(line)| {
        say(&line);
        Status::Failed
    });
    ExitCode::from(status as u8)
}

/// The first word is the command, or asks for help or the version.
fn run(words: &[OsString]) -> Result<Status, Fault> {
    let Some((first, rest)) = words.split_first() else {
        return Err(Fault::new("no command; see story-image help"));
    };
    match first.to_str() {
        Some("--help" | "-h") => help::overview(),
        Some("--version" | "-V") => help::version(),
        name => match name.and_then(commands::find) {
            Some(command) if asks_for_help(rest) => help::of(command),
            Some(command) => (command.run)(&Call::parse(command, rest)?),
            None => Err(Fault(format!("{}: no such command; see story-image help", first.to_string_lossy()))),
        },
    }
}

/// A command is called for its help alone.
fn asks_for_help(words: &[OsString]) -> bool {
    words.iter().take_while(|word| *word != "--").any(|word| word == "--help" || word == "-h")
}
