//! The one table of the program's commands. A new command is a row here, and the function that it names.
//!
//! The arguments say how a command is called, and which options it takes: an option stands in brackets of its own, with
//! the name of its value behind it if it has one. The script `story-image` reads the rows too, where nothing is built.

use crate::call::Call;
use crate::end::{Fault, Status};
use crate::{check, explain, graph, help, json, targets, tree};

/// What runs a command.
pub type Run = fn(&Call) -> Result<Status, Fault>;

pub struct Command {
    pub name: &'static str,
    pub arguments: &'static str,
    /// What it does, in a line.
    pub line: &'static str,
    /// What else its help says.
    pub more: &'static str,
    pub run: Run,
}

#[rustfmt::skip]
pub const COMMANDS: &[Command] = &[
    command("check", "[FILE..]", "a line for each image: `ok V N` (ink version, nodes) or `no K`", check::MORE, check::run),
    command("explain", "[FILE..]", "what a load says in words, and where the first broken rule stands", explain::MORE, explain::run),
    command("tree", "[--sleeper] [-o OUT] [FILE..]", "the nodes of an accepted image as an indented tree", tree::MORE, tree::run),
    command("json", "[-o OUT] [FILE..]", "what explain and tree say for programs, one JSON object a line", json::MORE, json::run),
    command("graph", "[--all] [-o OUT] [FILE..]", "containers and what leads from one to another, for Graphviz", graph::MORE, graph::run),
    command("targets", "[--path] [-o OUT] [FILE [NODE or PATH]]", "how many lead to each container, or which lead to one node", targets::MORE, targets::run),
    command("help", "[COMMAND]", "this, or what there is to say of a command", help::MORE, help::run),
];

const fn command(
    name: &'static str,
    arguments: &'static str,
    line: &'static str,
    more: &'static str,
    run: Run,
) -> Command {
    Command { name, arguments, line, more, run }
}

pub fn find(name: &str) -> Option<&'static Command> {
    COMMANDS.iter().find(|command| command.name == name)
}

impl Command {
    /// Whether it takes an option, and if so whether the option has a value.
    pub fn option(&self, name: &str) -> Option<bool> {
        let groups = self.arguments.split(['[', ']']).map(|group| group.split_once(' ').unwrap_or((group, "")));
        let mut options = groups.filter(|(option, _)| option.starts_with('-'));
        options.find(|(option, _)| *option == name).map(|(_, value)| !value.is_empty())
    }
}
