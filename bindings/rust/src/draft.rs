//! Drafts, and writing an image from one.

use crate::ffi;
use crate::refusal::Refusal;
use core::fmt;

/// A story before it is an image: sections 0 to 4 as words, payload and strings as bytes; any numbering with root 0.
/// [`DraftBuilder`](crate::DraftBuilder) makes one node by node.
///
/// ```
/// use story_image::{Draft, Image, NONE, load_words};
///
/// let root = [NONE, NONE, 1, NONE, NONE, 0, 0, 0, 0, 0];
/// let draft = Draft { nodes: &root, ..Draft::default() };
/// let mut work = vec![0; draft.work_words()];
/// let mut output = vec![0; draft.image_length(21, &mut work)?];
/// let image = draft.write(21, &mut work, &mut output)?;
/// assert_eq!(image.len(), 140);
/// assert_eq!(Image::load(image, &mut vec![0; load_words(image)])?.node_count(), 1);
/// # Ok::<(), story_image::Refusal>(())
/// ```
#[derive(Clone, Copy, Debug, Default)]
pub struct Draft<'a> {
    /// Ten words each: parent, place, tag, f0 to f6.
    pub nodes: &'a [u32],
    pub children: &'a [u32],
    /// Three words each: name and its length, node.
    pub named: &'a [u32],
    /// Four words each: name and its length, first item, number of items.
    pub definitions: &'a [u32],
    /// Three words each: name and its length, value.
    pub items: &'a [u32],
    pub payload: &'a [u8],
    pub strings: &'a [u8],
}

impl Draft<'_> {
    /// How many work words its writing takes: 16 a node, 4 for each other entry and payload byte.
    pub fn work_words(&self) -> usize {
        let Draft { nodes, children, named, definitions, items, payload, .. } = self;
        // SAFETY: the slices live through the call.
        unsafe {
            ffi::story_image_write_words(
                nodes.as_ptr(),
                nodes.len(),
                children.as_ptr(),
                children.len(),
                named.as_ptr(),
                named.len(),
                definitions.as_ptr(),
                definitions.len(),
                items.as_ptr(),
                items.len(),
                payload.as_ptr(),
                payload.len(),
            )
        }
    }

    /// How many bytes the image has: what an empty output is told.
    pub fn image_length(&self, ink_version: u32, work: &mut [u32]) -> Result<usize, Refusal> {
        match write(ink_version, self, work, &mut []) {
            Ok(length) | Err(WriteError::Short { needed: length }) => Ok(length),
            Err(WriteError::Refused(refusal)) => Err(refusal),
        }
    }

    /// Writes the image at the start of the output and gives that part of it. A refusal leaves the output as it was.
    pub fn write<'o>(&self, ink_version: u32, work: &mut [u32], output: &'o mut [u8]) -> Result<&'o [u8], WriteError> {
        let length = write(ink_version, self, work, output)?;
        Ok(&output[..length])
    }
}

/// Why an image was not written.
///
/// ```
/// use story_image::{Draft, NONE, Refusal, WriteError};
///
/// let root = [NONE, NONE, 1, NONE, NONE, 0, 0, 0, 0, 0];
/// let draft = Draft { nodes: &root, ..Draft::default() };
/// let mut work = vec![0; draft.work_words()];
/// let error = draft.write(21, &mut work, &mut [0; 139]).unwrap_err();
/// assert_eq!(error, WriteError::Short { needed: 140 });
/// assert_eq!(Refusal::from(error), Refusal::NO_ROOM);
/// assert_eq!(draft.write(17, &mut work, &mut []), Err(WriteError::Refused(Refusal::BAD_INK_VERSION)));
/// ```
#[derive(Clone, Copy, Debug, PartialEq, Eq, Hash)]
pub enum WriteError {
    /// 23: the output is too short, the image has `needed` bytes.
    Short { needed: usize },
    /// The first rule broken; 23 for an image of more than 4294967295 bytes.
    Refused(Refusal),
}

impl From<WriteError> for Refusal {
    fn from(error: WriteError) -> Refusal {
        match error {
            WriteError::Short { .. } => Refusal::NO_ROOM,
            WriteError::Refused(refusal) => refusal,
        }
    }
}

impl fmt::Display for WriteError {
    fn fmt(&self, f: &mut fmt::Formatter<'_>) -> fmt::Result {
        match self {
            WriteError::Short { needed } => {
                write!(f, "refused with 23: the output is too short, the image has {needed} bytes")
            }
            WriteError::Refused(refusal) => refusal.fmt(f),
        }
    }
}

impl core::error::Error for WriteError {}

/// Writes the image at the start of the output and gives its length. A refusal leaves the output as it was.
pub fn write(ink_version: u32, draft: &Draft<'_>, work: &mut [u32], output: &mut [u8]) -> Result<usize, WriteError> {
    // no image has the length 0
    let mut written = [0];
    // SAFETY: the slices are ours, the mutable ones do not overlap, and all live through the call.
    let number = unsafe {
        call_draft!(
            ffi::story_image_write[ink_version],
            draft.nodes.as_ptr(),
            draft,
            work.as_mut_ptr(),
            work.len(),
            output.as_mut_ptr(),
            output.len(),
            written.as_mut_ptr(),
            written.len()
        )
    };
    match (Refusal(number), written[0] as usize) {
        (Refusal(0), length) => Ok(length),
        (Refusal::NO_ROOM, needed) if needed != 0 => Err(WriteError::Short { needed }),
        (refusal, _) => Err(WriteError::Refused(refusal)),
    }
}
