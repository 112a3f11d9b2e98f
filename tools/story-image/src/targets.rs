//! `targets`: how many nodes lead to each container, or which lead to one node.

use crate::call::Call;
use crate::each::{Manner, Shown, each_of};
use crate::end::{Fault, Status};
use crate::explain;
use crate::leads::{Lead, Leads};
use crate::nesting::Nesting;
use crate::paths::{Paths, ROOT};
use inspect::library::{Image, Reader};
use std::cmp::Reverse;
use std::ffi::OsStr;
use std::io::{self, Write};

pub const MORE: &str = "\
What leads to a node are the choices, diverts, divert-target values and read counts (`reference`) that name it. With
FILE alone a line for each container, the most named first: how many lead to it, how many outside it lead to nodes below
it, its number and its path. With a node's number, or the path of a container, a line for each that leads to it: number,
kind, and the path of the container that holds it; of a container also those outside it that lead to nodes below it,
with the node that each names.

Digits alone are a node's number, and with --path a path; the empty path is the root's, which is shown as (root). A path
is that of the path index: names from below the root down, joined by dots, a place where there is no name. Of one that
is longer than 80 characters the end is shown. For a node or path that is not there a line goes to standard error, and
the exit status is 1. Of a refused image what `explain` says.

    story-image targets FILE night.2
    story-image targets FILE 44
    story-image targets --path FILE 3
";

const FAULT: &str = "a fault of this program: its counts are not the library's; please report this image";

pub fn run(call: &Call) -> Result<Status, Fault> {
    let fault = |what: String| Err(Fault(format!("{what}; see story-image help targets")));
    match &call.rest[..] {
        [] | [_] if call.has("--path") => fault("--path: no PATH behind FILE".to_owned()),
        [_, _, third, ..] => fault(format!("{}: one FILE, and one NODE or PATH", third.to_string_lossy())),
        words => each_of(call, &words[..words.len().min(1)], &Manner { show, named: false, refusals: true }),
    }
}

pub fn show(shown: &Shown<'_>, out: &mut dyn Write) -> io::Result<()> {
    let Ok(image) = &shown.loaded else { return explain::show(shown, out) };
    let Some(leads) = Leads::new(image) else {
        shown.instead(Status::Failed, FAULT);
        return Ok(());
    };
    let paths = Paths::new(image);
    let found = Found { image, nesting: Nesting::new(image, &paths), paths, leads };
    let asked = shown.call.rest.get(1).map(|word| found.asked(word, shown.call.has("--path")));
    if let Some(Err(line)) = &asked {
        shown.instead(Status::Refused, line);
        return Ok(());
    }
    writeln!(out, "{}", explain::answer(&shown.loaded))?;
    match asked {
        Some(Ok(node)) => found.one(node, out),
        _ => found.table(out),
    }
}

/// What is known of an image.
struct Found<'a> {
    image: &'a Image<'a>,
    paths: Paths<'a>,
    nesting: Nesting,
    leads: Leads,
}

impl Found<'_> {
    /// The node that a word of the call means, or in a line that there is none.
    fn asked(&self, word: &OsStr, path: bool) -> Result<u32, String> {
        let digits = !word.is_empty() && word.as_encoded_bytes().iter().all(u8::is_ascii_digit);
        let text = word.to_str();
        if digits && !path {
            let node = text.and_then(|text| text.parse().ok()).filter(|node| *node < self.image.node_count());
            return node.ok_or_else(|| format!("no node {}", word.to_string_lossy()));
        }
        let container = text.and_then(|text| self.paths.find(self.image, text));
        container.ok_or_else(|| format!("no container with the path {word:?}"))
    }

    /// A line for each container.
    fn table(&self, out: &mut dyn Write) -> io::Result<()> {
        let below = self.leads.counts_below(&self.nesting);
        let counts = (0..).zip(&self.leads.counts).filter(|(node, _)| self.is_container(*node));
        let mut lines: Vec<(u32, u32)> = counts.map(|(node, count)| (node, *count)).collect();
        // those of one count stay in the order of their numbers
        lines.sort_by_key(|(_, count)| Reverse(*count));
        writeln!(out, "  to it  below it    node  path")?;
        for (node, count) in lines {
            writeln!(out, "{count:>7}{:>10}{node:>8}  {}", below[node as usize], self.path(node))?;
        }
        Ok(())
    }

    /// What leads to a node and, if it is a container, from outside to nodes below it.
    fn one(&self, node: u32, out: &mut dyn Write) -> io::Result<()> {
        let container = self.is_container(node);
        let place = if container { self.path(node) } else { format!("in {}", self.path(self.nesting.parent(node))) };
        writeln!(out, "{node} {} {place}", self.kind(node))?;
        self.list(self.leads.to(node), "to it", |_| String::new(), out)?;
        if container {
            let below = self.leads.below(node, &self.nesting);
            self.list(below, "from outside to nodes below it", |target| format!(" -> {target}"), out)?;
        }
        Ok(())
    }

    /// How many lead somewhere, then a line for each; behind its kind what is said of the node that it names.
    fn list<'l>(
        &self,
        leads: impl Iterator<Item = &'l Lead>,
        whither: &str,
        named: fn(u32) -> String,
        out: &mut dyn Write,
    ) -> io::Result<()> {
        let leads: Vec<_> = leads.collect();
        writeln!(out, "{} {} {whither}", leads.len(), if leads.len() == 1 { "leads" } else { "lead" })?;
        // the container of the node before, which is often this one's too
        let (mut holder, mut path) = (0, self.path(0));
        for Lead { node, target } in leads {
            let parent = self.nesting.parent(*node);
            if std::mem::replace(&mut holder, parent) != parent {
                path = self.path(parent);
            }
            writeln!(out, "  {node} {}{} in {path}", self.kind(*node), named(*target))?;
        }
        Ok(())
    }

    fn is_container(&self, node: u32) -> bool {
        self.paths.nodes[node as usize].container
    }

    /// Its name, as the tree has it.
    fn kind(&self, node: u32) -> &'static str {
        self.image.node(node).map_or("no view", |view| view.kind.name())
    }

    /// The path of a container, with what does not print escaped.
    fn path(&self, container: u32) -> String {
        self.paths.path(container).map_or(ROOT.to_owned(), |path| format!("{path:?}"))
    }
}
