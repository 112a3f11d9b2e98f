//! Story images: loading, reading and writing, over the verified static library.
//!
//! - [`Image::load`] tests the whole image; its queries then answer what a player asks, with texts as `&str`.
//! - [`Sleeper`] is the reader for a player: notes to the technician are void, and texts are copied, so that nothing tells
//!   where they lie.
//! - [`DraftBuilder`] makes a [`Draft`] node by node, [`Draft::write`] turns it into an image. A draft with paths in
//!   place of targets is an [`OpenDraft`]; [`OpenDraft::resolve_static_targets`] finds the targets.
//! - [`Image::target_counts`] and [`Draft::count_targets`] tell how many targets name each node; a [`CountedDraft`]
//!   keeps them right while targets are changed.
//! - [`raw`] asks any bytes under any view, with texts by their places; [`ffi`] and [`sleeper_ffi`] have the functions of
//!   the two static libraries themselves.
//!
//! Every function takes any bytes and ends. Nothing is allocated; work words and output are lent. A [`Refusal`] is a
//! number of the table in docs/FORMAT.md of the repository.
#![no_std]
#![warn(missing_debug_implementations)]

#[macro_use]
mod ask;
mod builder;
mod counts;
mod draft;
pub mod ffi;
mod image;
mod lists;
mod names;
mod node;
mod page;
mod path;
pub mod raw;
mod refusal;
mod sleeper;
pub mod sleeper_ffi;
mod targets;
mod view;

pub use builder::{BuildError, DraftBuilder, ListEntry, NodeKind, Room};
pub use counts::{CountedDraft, TargetCounts};
pub use draft::{Draft, WriteError, write};
pub use image::{Image, NamedChildView, NodeKindView, NodeView, ValueView, load_words};
pub use lists::{DefinitionView, ListEntryView, ListView};
pub use names::{CommandType, KINDS, Op, kind, kind_name};
pub use node::{NodeKindOf, NodeViewOf, PushPopType, ValueOf};
pub use page::{Page, Slot};
pub use path::{PathText, Step};
pub use raw::{ItemSearch, ListItem};
pub use refusal::Refusal;
pub use sleeper::{Sleeper, SleeperEntry, SleeperKind, SleeperNode, SleeperValue, Text, sleeper_load_words};
pub use targets::{OpenDraft, Paths};
pub use view::{Section, View};

/// An absent node, place or text in the words of an image.
pub const NONE: u32 = u32::MAX;

/// Words of a node of a draft.
const NODE_WORDS: usize = 10;
