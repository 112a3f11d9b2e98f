//! To which row of the table of numbers each reason string of the published loader belongs.

/// The string, its row, and whether it can be reached on a 64-bit machine.
pub const REASONS: [(&str, u32, bool); 49] = [
    ("invalid or truncated image header", 1, true),
    ("unsupported image format version", 2, true),
    ("missing Ink version", 3, false),
    ("unsupported Ink version", 3, true),
    ("image length is invalid", 4, true),
    ("missing section offset", 5, false),
    ("missing section length", 5, false),
    ("section length overflow", 5, false),
    ("section offsets are not contiguous", 5, true),
    ("section end overflow", 5, false),
    ("section extends past image end", 5, true),
    ("image has trailing bytes or no root node", 5, true),
    ("image checksum does not match", 6, true),
    ("missing root node", 8, false),
    ("root must be a parentless container", 8, true),
    ("truncated node record", 5, false),
    ("node ID is out of range", 9, true),
    ("target is not a container", 9, true),
    ("node cannot be its own parent", 9, true),
    ("invalid UTF-8 string reference", 10, true),
    ("missing or invalid UTF-8 string", 10, true),
    ("index range overflow", 11, false),
    ("index range extends past section", 11, true),
    ("container child ranges are not contiguous", 11, true),
    ("list payloads are not contiguous", 11, true),
    ("list payload overflow", 11, false),
    ("list payload is out of range", 11, true),
    ("list payload is truncated", 11, true),
    ("list payload length overflow", 11, false),
    ("list payload length is invalid", 11, true),
    ("list item ranges are not contiguous", 11, true),
    ("unknown Ink command", 12, true),
    ("unknown native operation", 12, true),
    ("invalid assignment flags", 12, true),
    ("invalid divert flags", 12, true),
    ("unknown or malformed node tag", 12, true),
    ("image sections have unreferenced entries", 13, true),
    ("invalid child ID", 14, true),
    ("ordered child has inconsistent parent or index", 14, true),
    ("invalid named child", 14, true),
    ("named children are not sorted", 14, true),
    ("named child has inconsistent parent", 14, true),
    ("image contains unreachable nodes", 15, true),
    ("path index is not sorted", 16, true),
    ("path index disagrees with node ancestry", 16, true),
    ("list definitions are not sorted", 17, true),
    ("invalid list-definition item", 17, true),
    ("list-definition items are not sorted", 17, true),
    ("list-definition items contain unreferenced entries", 17, true),
];

/// The row of a reason.
pub fn row_of(reason: &str) -> Option<u32> {
    REASONS.iter().find(|(text, _, _)| *text == reason).map(|(_, row, _)| *row)
}

/// Reasons that, given by the loader for a draft's sections under an image's header, mean that the draft gets 19.
/// A target that is no container can also be a parent, which is 21.
pub fn breaks_draft(reason: &str) -> bool {
    let tree_too = ["invalid child ID", "invalid named child", "node ID is out of range"];
    let items_too = ["invalid list-definition item", "list-definition items contain unreferenced entries"];
    let not = ["target is not a container", "node cannot be its own parent"];
    tree_too.contains(&reason)
        || items_too.contains(&reason)
        || row_of(reason).is_some_and(|row| (9..=13).contains(&row) && !not.contains(&reason))
}

/// The messages of the published writer.
pub const WRITER: [(&str, u32); 4] = [
    ("story contains unreachable nodes", 20),
    ("multiple containers have the same canonical path", 22),
    ("container path could not be encoded", 22),
    ("story image exceeds the 4 GiB format limit", 23),
];

pub fn writer_row(message: &str) -> Option<u32> {
    WRITER.iter().find(|(text, _)| *text == message).map(|(_, row)| *row)
}

/// The messages of the published function that finds targets. After 21 the last one cannot be: only an index leads to a
/// node that is no container.
pub const RESOLVER: [(&str, u32, bool); 3] = [
    ("static story target could not be resolved", 25, true),
    ("choice or read-count target is not a container", 26, true),
    ("named divert target is not a container", 26, false),
];

pub fn resolver_row(message: &str) -> Option<u32> {
    RESOLVER.iter().find(|(text, _, _)| *text == message).map(|(_, row, _)| *row)
}
