//! What must come up where targets are counted and set.

/// What is met in images.
#[derive(Clone, Copy)]
pub enum Image {
    Choice,
    Divert,
    Value,
    Reference,
    DivertAbsent,
    ReferenceAbsent,
    Itself,
    Last,
    Several,
    Entries,
    Field,
    Text,
    NoTarget,
    Later,
    Few,
    Short,
    ShortAndFew,
    OtherAbsent,
    Outside,
    NotInBytes,
}

/// Each in words, and whether it can come up on an image that the published Rust accepts.
pub const IMAGES: [(&str, bool); 20] = [
    ("targets of choices", true),
    ("targets of diverts", true),
    ("targets of divert-target values", true),
    ("targets of references", true),
    ("diverts without target", true),
    ("references without target", true),
    ("nodes that name themselves", true),
    ("targets that are the last node", true),
    ("nodes that several targets name", true),
    ("nodes that entries name and no target", true),
    ("f4 of another kind than a reference, a node", true),
    ("f2 of a reference, a node", true),
    ("images without target", true),
    ("images with words after those of the nodes", true),
    ("27 for a word too few", true),
    ("18 for a short view", true),
    ("18 for a short view, words too few", true),
    ("choices, divert-target values without target", false),
    ("targets that are no node", false),
    ("images whose nodes do not lie in the bytes", false),
];

/// What becomes of a change, of each kind of node that has a target.
#[derive(Clone, Copy)]
pub enum Outcome {
    Moved,
    Set,
    Cleared,
    Stays,
    Broken,
    Short,
    Absent,
    NoContainer,
    Outside,
    Down,
    Up,
}

/// The kinds, and which outcomes each has: moved, set, cleared, stays; 19; 27 short; 18 for NONE, for no container, for
/// a node outside; 27 last by the old word, by the new one.
pub const KINDS: [(&str, [bool; 11]); 4] = [
    ("choice", [true, false, false, true, true, true, true, true, true, true, true]),
    ("divert", [true, true, true, true, true, true, false, false, true, true, true]),
    ("divert-target value", [true, false, false, true, true, true, true, false, true, true, true]),
    ("reference", [true, true, true, true, true, true, false, true, true, true, true]),
];

/// What else is met in changes.
#[derive(Clone, Copy)]
pub enum Step {
    NodeCount,
    NodeNone,
    NodeWraps,
    NoKind,
    Itself,
    Last,
    Root,
    StaysAbsent,
    StaysZero,
    StaysTop,
    ToZero,
    FromZero,
    ToTop,
    FromTop,
    BothStuck,
    SetStuck,
    ClearStuck,
    BrokenShort,
    BrokenForbidden,
    ShortForbidden,
    ShortStays,
    NoWord,
    ForbiddenStuck,
    Later,
}

pub const STEPS: [&str; 24] = [
    "18 for the node count",
    "18 for NONE as the node",
    "18 for a node whose words would wrap round",
    "18 for a kind without target",
    "a node comes to name itself",
    "the last node is named",
    "node 0 is named",
    "NONE stays",
    "a target stays, its word is 0",
    "a target stays, its word is 4294967295",
    "a word comes to 0",
    "a word comes from 0",
    "a word comes to 4294967295",
    "a word comes from 4294967295",
    "27 last for both words",
    "27 last where a target is set",
    "27 last where a target is cleared",
    "19 before 27, short",
    "19 before 18",
    "27, short, before 18",
    "27, short, where the target stays",
    "27, no word lent",
    "18 before 27, last",
    "changes with words after those of the nodes",
];

/// What is met in drafts.
#[derive(Clone, Copy)]
pub enum Draft {
    Counted,
    Broken,
    BrokenFew,
    Few,
    NoTarget,
    Long,
    Written,
    Clash,
    Unreached,
    Tree,
}

/// Each in words, and whether it comes up only where our writer can tell of any draft whether it passes 19.
pub const DRAFTS: [(&str, bool); 10] = [
    ("counted", false),
    ("counted: 19", false),
    ("counted: 19, words too few", false),
    ("counted: 27", false),
    ("counted: no target", false),
    ("changed, five steps and more", false),
    ("changed, then written", false),
    ("changed, then 22", false),
    ("changed, then 20", true),
    ("changed, then 21", true),
];
