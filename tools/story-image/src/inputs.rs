//! The files that a call reads.

use std::ffi::{OsStr, OsString};
use std::fs::{File, Metadata};
use std::io::{self, ErrorKind, Read};
use std::os::fd::AsFd;
use std::os::unix::fs::{FileTypeExt, MetadataExt};

/// Which file it is, under whatever name: device and inode.
pub type Identity = (u64, u64);

pub fn identity(metadata: &Metadata) -> Identity {
    (metadata.dev(), metadata.ino())
}

/// Reads files, standard input once, and keeps which they were.
#[derive(Default)]
pub struct Inputs {
    pub read: Vec<Identity>,
    standard_read: bool,
}

fn standard_input() -> io::Result<File> {
    Ok(File::from(io::stdin().as_fd().try_clone_to_owned()?))
}

/// The files of a call; where it names none, standard input if that is a pipe or a file.
pub fn files(named: &[OsString]) -> Option<Vec<OsString>> {
    if !named.is_empty() {
        return Some(named.to_vec());
    }
    // a terminal, or a device such as /dev/null, which also stands in for a closed one
    let device = standard_input().and_then(|file| file.metadata()).map(|data| data.file_type().is_char_device());
    if device.unwrap_or(true) { None } else { Some(vec![OsString::from("-")]) }
}

impl Inputs {
    /// The bytes of a file, or in a line why it cannot be read.
    pub fn read(&mut self, name: &OsStr) -> Result<Vec<u8>, String> {
        let fault = |what: &str| format!("{}: {what}", name.to_string_lossy());
        if name.is_empty() {
            return Err("an empty file name".to_owned());
        }
        if name == "-" && std::mem::replace(&mut self.standard_read, true) {
            return Err(fault("standard input can be read once"));
        }
        let opened = if name == "-" { standard_input() } else { File::open(name) };
        opened.and_then(|file| self.bytes(file)).map_err(|error| match error.kind() {
            ErrorKind::NotFound | ErrorKind::NotADirectory => fault("no such file"),
            ErrorKind::PermissionDenied => fault("may not be read"),
            ErrorKind::IsADirectory => fault("is a directory"),
            _ => fault(&format!("cannot be read: {error}")),
        })
    }

    fn bytes(&mut self, mut file: File) -> io::Result<Vec<u8>> {
        self.read.push(identity(&file.metadata()?));
        let mut bytes = vec![];
        file.read_to_end(&mut bytes)?;
        Ok(bytes)
    }
}
