//! The help, made of the table of commands, and the version.

use crate::call::Call;
use crate::commands::{self, COMMANDS, Command};
use crate::end::{Fault, Status, print};

pub const MORE: &str = "\
story-image --help is story-image help, story-image COMMAND --help is story-image help COMMAND, and story-image --version
prints the version of the library, with which the program goes, and that of the format.
";

const FILES: &str = "
FILE `-` is standard input, which is read too where there is no FILE and it is a pipe or a file; `--` ends the options.
Where there are several, the name stands in front of what is said of each. Images may have any length.
";

const OUT: &str = "
With -o OUT all goes to the file OUT, which is made or replaced when it is whole and all images are accepted, and is never
one of the images; what is said of a refused one then goes to standard error.
";

const STATUS: &str = "
Exit status: 0 all accepted; 1 one is refused; 2 a wrong call, or a file that cannot be read or written.
";

/// `help` and `help COMMAND`.
pub fn run(call: &Call) -> Result<Status, Fault> {
    match &call.rest[..] {
        [] => overview(),
        [name] => match name.to_str().and_then(commands::find) {
            Some(command) => of(command),
            None => Err(Fault(format!("{}: no such command; see story-image help", name.to_string_lossy()))),
        },
        [_, second, ..] => {
            Err(Fault(format!("{}: help takes one command; see story-image help", second.to_string_lossy())))
        }
    }
}

/// All commands, a line each.
pub fn overview() -> Result<Status, Fault> {
    let rows = COMMANDS.iter().map(|command| {
        let usage = format!("{} {}", command.name, command.arguments);
        format!("  {usage:47} {}\n", command.line)
    });
    let rows: String = rows.collect();
    print(&format!("usage: story-image COMMAND ..\n\n{rows}{FILES}{OUT}{STATUS}"))?;
    Ok(Status::Accepted)
}

/// One command.
pub fn of(command: &Command) -> Result<Status, Fault> {
    let Command { name, arguments, line, more, .. } = command;
    let (reads, writes) = (arguments.contains("FILE"), command.option("-o").is_some());
    let (files, out) = (if reads { FILES } else { "" }, if writes { OUT } else { "" });
    print(&format!("usage: story-image {name} {arguments}\n\n{line}\n\n{more}{files}{out}{STATUS}"))?;
    Ok(Status::Accepted)
}

/// The library's version, and the format's.
pub fn version() -> Result<Status, Fault> {
    print(&format!("story-image {}, format version {}\n", env!("CARGO_PKG_VERSION"), inspect::rules::FORMAT_VERSION))?;
    Ok(Status::Accepted)
}
