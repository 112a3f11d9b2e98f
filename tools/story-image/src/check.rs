//! `check`: what a load says of an image, in a line.

use crate::call::Call;
use crate::each::{Manner, Shown, each};
use crate::end::{Fault, Status};
use crate::explain::answer;
use std::io::{self, Write};

pub const MORE: &str = "\
`ok V N` is an accepted image of ink version V with N nodes; `no K` a refused one, and README.md has the numbers K. The
answer is that of the proved load of the library, for images of any length.
";

pub fn run(call: &Call) -> Result<Status, Fault> {
    each(call, &Manner { show, named: true, refusals: true })
}

fn show(shown: &Shown<'_>, out: &mut dyn Write) -> io::Result<()> {
    writeln!(out, "{}", answer(&shown.loaded))
}
