//! A result that is a file: written under a temporary name beside its target, and renamed when it is whole.

use crate::inputs::{Identity, identity};
use std::ffi::OsStr;
use std::fs::{self, File, OpenOptions};
use std::io::{self, BufWriter, ErrorKind, Write};
use std::path::{Path, PathBuf};

/// A file that is being written. Dropped before it is finished it leaves nothing, and the target as it was.
pub struct Whole {
    /// The name that was given.
    name: String,
    /// The file that is made or replaced.
    target: PathBuf,
    temporary: PathBuf,
    file: BufWriter<File>,
}

impl Whole {
    /// Begins to write; or says in a line why the target cannot be.
    pub fn create(target: &OsStr) -> Result<Whole, String> {
        let name = target.to_string_lossy().into_owned();
        let fault = |what: &dyn std::fmt::Display| format!("{name}: {what}");
        let target = replaceable(target).map_err(|what| fault(&what))?;
        let folder = match target.parent() {
            Some(folder) if folder != Path::new("") => folder,
            _ => Path::new("."),
        };
        let (temporary, file) = temporary(folder).map_err(|error| fault(&format!("cannot be written: {error}")))?;
        Ok(Whole { name, target, temporary, file: BufWriter::new(file) })
    }

    /// The target, as it was named.
    pub fn name(&self) -> &str {
        &self.name
    }

    /// Puts the whole file in the target's place; not over one of the inputs, under whatever name that was read.
    pub fn finish(mut self, inputs: &[Identity]) -> Result<(), String> {
        let there = fs::metadata(&self.target).ok();
        if there.as_ref().is_some_and(|there| inputs.contains(&identity(there))) {
            return Err(format!("{}: is read too, and stays as it was", self.name));
        }
        self.put(there).map_err(|error| format!("{}: cannot be written: {error}", self.name))
    }

    fn put(&mut self, there: Option<fs::Metadata>) -> io::Result<()> {
        self.file.flush()?;
        if let Some(there) = there {
            self.file.get_ref().set_permissions(there.permissions())?;
        }
        self.file.get_ref().sync_all()?;
        fs::rename(&self.temporary, &self.target)
    }
}

impl Drop for Whole {
    fn drop(&mut self) {
        // nothing bears this name once it is renamed
        let _ = fs::remove_file(&self.temporary);
    }
}

impl Write for Whole {
    fn write(&mut self, bytes: &[u8]) -> io::Result<usize> {
        self.file.write(bytes)
    }

    fn flush(&mut self) -> io::Result<()> {
        self.file.flush()
    }
}

/// The file behind a name: the one that a link leads to, if it is one. Only regular files are replaced.
fn replaceable(name: &OsStr) -> Result<PathBuf, String> {
    if name.is_empty() {
        return Err("an empty file name".to_owned());
    }
    match fs::symlink_metadata(name) {
        Err(error) if error.kind() == ErrorKind::NotFound => return Ok(PathBuf::from(name)),
        Err(error) => return Err(format!("cannot be written: {error}")),
        Ok(_) => {}
    }
    let file = fs::canonicalize(name).map_err(|_| "is a link to nothing".to_owned())?;
    if file.is_dir() {
        return Err("is a directory".to_owned());
    }
    if file.is_file() { Ok(file) } else { Err("is no regular file".to_owned()) }
}

/// A new file of a name that nobody has.
fn temporary(folder: &Path) -> io::Result<(PathBuf, File)> {
    let mut k = 0;
    loop {
        let path = folder.join(format!(".story-image-{}-{k}", std::process::id()));
        match OpenOptions::new().write(true).create_new(true).open(&path) {
            Err(error) if error.kind() == ErrorKind::AlreadyExists && k < 100 => k += 1,
            made => return Ok((path, made?)),
        }
    }
}
