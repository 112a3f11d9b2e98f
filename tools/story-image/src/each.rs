//! Commands that show images one by one.

use crate::call::Call;
use crate::end::{Fault, Status, say};
use crate::inputs::{Inputs, files};
use crate::whole::Whole;
use inspect::library::{self, Image};
use std::cell::Cell;
use std::ffi::{OsStr, OsString};
use std::io::{self, BufWriter, ErrorKind, StdoutLock, Write};

/// A file that was read, and what the proved load says of it.
pub struct Shown<'a> {
    pub call: &'a Call,
    pub name: &'a str,
    pub bytes: &'a [u8],
    pub loaded: Result<Image<'a>, u32>,
    /// How showing it ends the call.
    status: Cell<Status>,
}

impl<'a> Shown<'a> {
    pub fn new(call: &'a Call, name: &'a str, bytes: &'a [u8]) -> Self {
        let loaded = library::load(bytes);
        let status = if loaded.is_ok() { Status::Accepted } else { Status::Refused };
        Shown { call, name, bytes, loaded, status: Cell::new(status) }
    }

    pub fn status(&self) -> Status {
        self.status.get()
    }

    /// A line on standard error in place of what was asked of an accepted image, and how that ends the call.
    pub fn instead(&self, status: Status, line: &str) {
        say(&format!("{}: {line}", self.name));
        self.status.set(status);
    }
}

/// What shows an image.
pub type Show = fn(&Shown<'_>, &mut dyn Write) -> io::Result<()>;

/// How a command shows images.
pub struct Manner {
    pub show: Show,
    /// Whether the name stands in front where there are several.
    pub named: bool,
    /// Whether what is said of a refused image is part of the result.
    pub refusals: bool,
}

/// Where the result goes.
enum Output {
    Standard(BufWriter<StdoutLock<'static>>),
    File(Whole),
}

impl Output {
    /// Standard output, or the file that the option -o names.
    fn open(name: Option<&OsStr>) -> Result<Output, Fault> {
        match name {
            Some(name) if name != "-" => Ok(Output::File(Whole::create(name).map_err(Fault)?)),
            _ => Ok(Output::Standard(BufWriter::new(io::stdout().lock()))),
        }
    }

    fn writer(&mut self) -> &mut dyn Write {
        match self {
            Output::Standard(out) => out,
            Output::File(file) => file,
        }
    }

    /// The end of a call: a file takes its name only if all went well.
    fn finish(self, status: Status, inputs: &Inputs) -> Result<(), Fault> {
        match self {
            Output::Standard(mut out) => out.flush().or_else(ended),
            Output::File(file) if status == Status::Accepted => file.finish(&inputs.read).map_err(Fault),
            Output::File(file) => {
                say(&format!("{}: not written", file.name()));
                Ok(())
            }
        }
    }
}

/// Shows each file of a call, all its words but options.
pub fn each(call: &Call, manner: &Manner) -> Result<Status, Fault> {
    each_of(call, &call.rest, manner)
}

/// Shows these files of a call.
pub fn each_of(call: &Call, named: &[OsString], manner: &Manner) -> Result<Status, Fault> {
    let Some(names) = files(named) else {
        return Err(Fault::new("no FILE, and nothing on standard input; see story-image help"));
    };
    let output = Output::open(call.value("-o"))?;
    let several = names.len() > 1;
    let mut run = Run { call, manner, several, output, inputs: Inputs::default(), status: Status::Accepted };
    for name in &names {
        if let Err(error) = run.one(name) {
            return ended(error).map(|()| run.status);
        }
    }
    run.output.finish(run.status, &run.inputs)?;
    Ok(run.status)
}

/// What a failed write means: a reader that stops reading is no fault.
fn ended(error: io::Error) -> Result<(), Fault> {
    if error.kind() == ErrorKind::BrokenPipe { Ok(()) } else { Err(Fault(format!("output: {error}"))) }
}

/// A call under way.
struct Run<'a> {
    call: &'a Call,
    manner: &'a Manner,
    several: bool,
    output: Output,
    inputs: Inputs,
    status: Status,
}

impl Run<'_> {
    /// Reads one file and shows it.
    fn one(&mut self, file: &OsStr) -> io::Result<()> {
        let bytes = match self.inputs.read(file) {
            Ok(bytes) => bytes,
            Err(line) => {
                self.status = Status::Failed;
                self.output.writer().flush()?;
                say(&line);
                return Ok(());
            }
        };
        let name = file.to_string_lossy();
        let shown = Shown::new(self.call, &name, &bytes);
        let written = self.show(&shown);
        self.status = self.status.max(shown.status());
        written
    }

    fn show(&mut self, shown: &Shown<'_>) -> io::Result<()> {
        let named = self.several && self.manner.named;
        let front = if named { format!("{}: ", shown.name) } else { String::new() };
        if shown.loaded.is_ok() || (self.manner.refusals && matches!(self.output, Output::Standard(_))) {
            self.output.writer().write_all(front.as_bytes())?;
            return (self.manner.show)(shown, self.output.writer());
        }
        self.output.writer().flush()?;
        let mut text = front.into_bytes();
        (self.manner.show)(shown, &mut text)?;
        // that nobody listens there is no fault
        let _ = io::stderr().write_all(&text);
        Ok(())
    }
}
