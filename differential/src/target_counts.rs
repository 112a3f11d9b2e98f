//! How many targets name each node, which the published Rust does not tell: counted over the targets that its views
//! show on an image that it accepts, over the words of the nodes on other bytes, under other views and of drafts. Then
//! the targets of drafts, set one by one with the summary beside them.

mod chains;
mod changes;
mod images;
pub mod met;
pub mod model;

pub use chains::{Case, compare, random};
pub use images::{accepted, strange};
