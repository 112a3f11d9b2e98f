//! How a call ends, and what it says on standard error.

use std::io::{self, Write};

/// The exit status, the worse the higher.
#[derive(Clone, Copy, Debug, PartialEq, Eq, PartialOrd, Ord)]
pub enum Status {
    /// All images are accepted.
    Accepted,
    /// One is refused, or has not what was asked for.
    Refused,
    /// A wrong call, or a file that cannot be read or written.
    Failed,
}

/// Why a call cannot go on, in a line.
#[derive(Debug, PartialEq, Eq)]
pub struct Fault(pub String);

impl Fault {
    pub fn new(line: &str) -> Fault {
        Fault(line.to_owned())
    }
}

/// The name under which the program speaks: that of the script that calls it for its own users, if one does.
pub fn caller() -> Option<String> {
    std::env::var("STORY_IMAGE_CALLER").ok()
}

/// One line on standard error. If nobody listens there, that is no fault.
pub fn say(line: &str) {
    let name = caller().unwrap_or("story-image".to_owned());
    let _ = writeln!(io::stderr(), "{name}: {line}");
}

/// A text on standard output. A reader that stops reading is no fault.
pub fn print(text: &str) -> Result<(), Fault> {
    let mut out = io::stdout().lock();
    match out.write_all(text.as_bytes()).and_then(|()| out.flush()) {
        Err(error) if error.kind() != io::ErrorKind::BrokenPipe => Err(Fault(format!("output: {error}"))),
        _ => Ok(()),
    }
}
