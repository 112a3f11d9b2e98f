//! The kinds of nodes, the 26 commands and the 31 operators, by number and by name. The tools of the repository take
//! them from here; this file stands alone, so that what is built without the library can have it too.

/// Kinds of nodes, each with its number and its name.
macro_rules! kinds {
    ($($number:literal $case:ident $name:literal)*) => {
        /// Kinds of nodes by number: the tags of an image. There is no 0 and no 15.
        pub mod kind {
            $(#[doc = concat!("`", $name, "`")] pub const $case: u32 = $number;)*
        }

        /// Number and name of each kind of node, in rising order.
        pub const KINDS: &[(u32, &str)] = &[$((kind::$case, $name)),*];

        /// The name of a kind of node by its number; nothing for a number that is none.
        ///
        /// ```
        /// use story_image::{kind, kind_name};
        ///
        /// assert_eq!((kind_name(kind::DIVERT), kind_name(15)), (Some("divert"), None));
        /// ```
        pub const fn kind_name(number: u32) -> Option<&'static str> {
            match number {
                $(kind::$case => Some($name),)*
                _ => None,
            }
        }
    };
}

kinds! {
    1 CONTAINER "container"
    2 CHOICE "choice"
    3 COMMAND "command"
    4 DIVERT "divert"
    5 GLUE "glue"
    6 OPERATOR "operator"
    7 TAG "tag"
    8 BOOL "bool"
    9 INT "int"
    10 FLOAT "float"
    11 STRING "string"
    12 LIST "list"
    13 DIVERT_TARGET "divert target"
    14 POINTER "pointer"
    16 ASSIGNMENT "assignment"
    17 REFERENCE "reference"
    18 VOID "void"
}

/// An enum whose cases are numbered from 0, each with the text by which an image names it.
macro_rules! named {
    ($(#[$doc:meta])* $kind:ident { $($case:ident $name:literal)* }) => {
        $(#[$doc])*
        #[derive(Clone, Copy, Debug, PartialEq, Eq, Hash)]
        pub enum $kind {
            $(#[doc = concat!("`", $name, "`")] $case,)*
        }

        impl $kind {
            /// All of them, by number.
            pub const ALL: &[$kind] = &[$($kind::$case),*];

            /// The names of all of them, by number.
            pub const NAMES: &[&'static str] = &[$($name),*];

            /// By its number, where there is one.
            #[inline]
            pub fn from_number(number: u32) -> Option<$kind> {
                $kind::ALL.get(number as usize).copied()
            }

            /// Its number in the words of a view.
            pub const fn number(self) -> u32 {
                self as u32
            }

            /// The text by which an image names it.
            pub const fn name(self) -> &'static str {
                match self {
                    $($kind::$case => $name,)*
                }
            }

            /// By the text that names it.
            pub fn from_name(name: &str) -> Option<$kind> {
                $kind::ALL.iter().copied().find(|one| one.name() == name)
            }
        }

        impl core::fmt::Display for $kind {
            fn fmt(&self, f: &mut core::fmt::Formatter<'_>) -> core::fmt::Result {
                f.write_str(self.name())
            }
        }
    };
}

named! {
    /// A command.
    ///
    /// ```
    /// use story_image::CommandType;
    ///
    /// assert_eq!(CommandType::from_name("~ret"), Some(CommandType::PopFunction));
    /// assert_eq!(CommandType::from_number(5), Some(CommandType::PopFunction));
    /// assert_eq!(CommandType::PopFunction.to_string(), "~ret");
    /// ```
    CommandType {
        EvalStart "ev"
        EvalOutput "out"
        EvalEnd "/ev"
        Duplicate "du"
        PopEvaluatedValue "pop"
        PopFunction "~ret"
        PopTunnel "->->"
        BeginString "str"
        EndString "/str"
        NoOp "nop"
        ChoiceCount "choiceCnt"
        Turns "turn"
        TurnsSince "turns"
        ReadCount "readc"
        Random "rnd"
        SeedRandom "srnd"
        VisitIndex "visit"
        SequenceShuffleIndex "seq"
        StartThread "thread"
        Done "done"
        End "end"
        ListFromInt "listInt"
        ListRange "range"
        ListRandom "lrnd"
        BeginTag "#"
        EndTag "/#"
    }
}

named! {
    /// An operator.
    ///
    /// ```
    /// use story_image::Op;
    ///
    /// assert_eq!(Op::from_name("LIST_ALL"), Some(Op::All));
    /// assert_eq!((Op::Add.number(), Op::Add.name()), (0, "+"));
    /// ```
    Op {
        Add "+"
        Subtract "-"
        Divide "/"
        Multiply "*"
        Mod "%"
        Negate "_"
        Equal "=="
        Greater ">"
        Less "<"
        GreaterThanOrEquals ">="
        LessThanOrEquals "<="
        NotEquals "!="
        Not "!"
        And "&&"
        Or "||"
        Min "MIN"
        Max "MAX"
        Pow "POW"
        Floor "FLOOR"
        Ceiling "CEILING"
        Int "INT"
        Float "FLOAT"
        Has "?"
        Hasnt "!?"
        Intersect "^"
        ListMin "LIST_MIN"
        ListMax "LIST_MAX"
        All "LIST_ALL"
        Count "LIST_COUNT"
        ValueOfList "LIST_VALUE"
        Invert "LIST_INVERT"
    }
}
