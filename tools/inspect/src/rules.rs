//! The rules of a load, in the order in which they are tested, each with the place where it is broken.
//!
//! Written from docs/FORMAT.md and docs/DECISIONS.md, apart from the library; only the names of kinds, commands and
//! operators are the wrapper's. One function a rule; the file names the
//! rows: `header` 1 to 5, `checksum` 6, `records` 8 to 13, `tree` 14 and 15, `index` 16, `definitions` 17. (A row that
//! says of a text, node or range what an earlier row says of others gives that row's number.) Row 7, too few work
//! words, is of a call, not of an image.

mod checksum;
mod definitions;
mod header;
mod index;
pub mod kinds;
pub mod place;
mod records;
pub mod sections;
mod tree;

pub use header::VERSION as FORMAT_VERSION;
pub use place::{Broken, Part, Place};

/// All rules by number and name, in the order in which they are tested first.
pub const RULES: [(u32, &str); 41] = [
    (1, "whole header"),
    (1, "magic"),
    (2, "format version"),
    (3, "ink version"),
    (4, "total length"),
    (5, "section start"),
    (5, "section end"),
    (5, "bytes left over"),
    (5, "some node"),
    (6, "checksum"),
    (8, "root"),
    (9, "node number"),
    (9, "container"),
    (9, "own parent"),
    (12, "tag"),
    (10, "text"),
    (11, "entries' start"),
    (11, "entries' range"),
    (12, "command"),
    (12, "operator"),
    (12, "flag"),
    (11, "payload start"),
    (11, "payload range"),
    (11, "payload length"),
    (13, "left over"),
    (13, "index count"),
    (14, "child"),
    (14, "child's parent and place"),
    (14, "named entry's text"),
    (14, "order of named entries"),
    (14, "named child's parent"),
    (15, "reached"),
    (16, "order of the index"),
    (16, "name or place"),
    (16, "fit of a path"),
    (17, "order of definitions"),
    (11, "items' start"),
    (11, "items' range"),
    (17, "text"),
    (17, "order of items"),
    (17, "items left over"),
];

/// Passes, or is broken at a place.
pub(crate) type Rule = Result<(), Broken>;

/// The first rule that the bytes break; none if a load accepts them.
pub fn first_broken(bytes: &[u8]) -> Option<Broken> {
    whole(bytes).err()
}

fn whole(bytes: &[u8]) -> Rule {
    let image = header::rules(bytes)?;
    checksum::rule(bytes)?;
    records::rules(&image)?;
    tree::rules(&image)?;
    index::rules(&image)?;
    definitions::rules(&image)
}
