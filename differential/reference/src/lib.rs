//! The published Rust, compiled unchanged, behind a small interface of our own.

#[allow(dead_code)]
mod compat;
#[allow(dead_code)]
mod ink_list;
mod json;
#[allow(dead_code)]
mod math;
#[allow(dead_code)]
mod object;
#[allow(unused_imports)]
mod prelude;
#[allow(dead_code)]
mod value_type;

use std::io;

include!(concat!(env!("OUT_DIR"), "/published/modules.rs"));

mod draft;
mod targets;
mod view;

pub use draft::{Draft, Story, Written, write, write_story};
pub use targets::{Resolved, resolve, resolve_story, steps_of};
pub use view::{Image, Kind, ListEntries, ListEntry, Named, NodeView, Step, Walk, load};

/// Every reason string in the published loader's source.
pub const REASONS: &[&str] = include!(concat!(env!("OUT_DIR"), "/published/reasons.rs"));
