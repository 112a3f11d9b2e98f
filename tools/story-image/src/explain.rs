//! `explain`: what a load says of an image, and where the first broken rule stands.

use crate::call::Call;
use crate::each::{Manner, Shown, each};
use crate::end::{Fault, Status, caller};
use inspect::library::{self, Image, Reader};
use inspect::rules::{Broken, first_broken};
use std::io::{self, Write};

pub const MORE: &str = "\
Of a refused image the rule that is broken first and its place: section, node or entry, field, byte, and what is there.
The number is that of the proved load; the place is found by plain rules that are tested to give the same number.
";

pub fn run(call: &Call) -> Result<Status, Fault> {
    each(call, &Manner { show, named: true, refusals: true })
}

/// More bytes than the program `image_check` reads.
const LONG: usize = 65_536;

/// `ok V N` or `no K`.
pub fn answer(loaded: &Result<Image<'_>, u32>) -> String {
    match loaded {
        Ok(image) => format!("ok {} {}", image.ink_version(), image.node_count()),
        Err(number) => format!("no {number}"),
    }
}

/// The broken rule of refused bytes; its number is that of the proved load, or none is given.
pub fn broken(bytes: &[u8], number: u32) -> Option<Broken> {
    first_broken(bytes).filter(|broken| broken.number == number)
}

/// Lines for a reader: the answer, the row's words, the place, what is there.
pub fn show(shown: &Shown<'_>, out: &mut dyn Write) -> io::Result<()> {
    let (bytes, number) = (shown.bytes, shown.loaded.as_ref().err().copied().unwrap_or(0));
    writeln!(out, "{}", answer(&shown.loaded))?;
    // users of the script image-check alone have met `long`
    if bytes.len() > LONG && caller().is_some() {
        writeln!(out, "  ({} bytes: without --explain the answer is `long`)", bytes.len())?;
    }
    writeln!(out, "  {}", library::words(number))?;
    if number == 0 {
        return Ok(());
    }
    match broken(bytes, number) {
        Some(broken) => {
            writeln!(out, "  rule:  {}", broken.rule)?;
            writeln!(out, "  place: {}", broken.place)?;
            writeln!(out, "  there: {}", broken.because)
        }
        None => writeln!(out, "  place: not found; please report this image"),
    }
}
