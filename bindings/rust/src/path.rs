//! Paths as texts, and walks along a path.

use crate::NONE;

/// A component of a path.
#[derive(Clone, Copy, Debug, PartialEq, Eq)]
pub enum Step<'a> {
    Parent,
    Index(u32),
    Name(&'a str),
}

/// Words of a component.
pub(crate) const STEP_WORDS: usize = 3;

impl<'a> Step<'a> {
    /// The words that the library takes, of a name with the place of its first byte; nothing for a place or a length
    /// that is no word.
    pub(crate) fn words(self, at: usize) -> Option<[u32; STEP_WORDS]> {
        Some(match self {
            Step::Parent => [0, 0, 0],
            Step::Index(index) => [1, index, 0],
            Step::Name(name) => [2, u32::try_from(at).ok()?, u32::try_from(name.len()).ok()?],
        })
    }

    /// A part of a path text.
    pub(crate) fn from_part(part: &'a str) -> Step<'a> {
        match part.parse::<usize>() {
            Ok(index) => Step::Index(u32::try_from(index).unwrap_or(NONE)),
            Err(_) if part == "^" => Step::Parent,
            Err(_) => Step::Name(part),
        }
    }
}

/// A path as a text, read as the published Rust reads one. The empty text is absolute and has no components: the root.
/// A leading dot makes a path relative. Between dots then stands `^` for the parent; what `usize` parses (`7`, `007`
/// and `+7` alike) for an index; or a name, an empty one too. An index above 4294967294 becomes [`NONE`]: no container
/// has as many children, so it stays an index at which nothing is found. The library takes components: the text is
/// parsed by this wrapper, which is not proved.
///
/// ```
/// use story_image::{PathText, Step};
///
/// let path = PathText::new(".^.^.night.3");
/// assert!(path.relative);
/// assert!(path.steps().eq([Step::Parent, Step::Parent, Step::Name("night"), Step::Index(3)]));
/// ```
#[derive(Clone, Copy, Debug, PartialEq, Eq)]
pub struct PathText<'a> {
    pub relative: bool,
    /// What has the parts; nothing where there are none.
    rest: Option<&'a str>,
}

impl<'a> PathText<'a> {
    pub fn new(text: &'a str) -> Self {
        match text.strip_prefix('.') {
            Some(rest) => PathText { relative: true, rest: Some(rest) },
            None => PathText { relative: false, rest: Some(text).filter(|text| !text.is_empty()) },
        }
    }

    /// Its components.
    pub fn steps(&self) -> impl Iterator<Item = Step<'a>> + use<'a> {
        self.parts().map(Step::from_part)
    }

    /// The texts between the dots.
    pub(crate) fn parts(&self) -> impl Iterator<Item = &'a str> + use<'a> {
        self.rest.into_iter().flat_map(|rest| rest.split('.'))
    }
}

/// Components and bytes of names that one call is handed.
const STEPS: usize = 16;
const NAMES: usize = 256;

/// The first components of a path, in the words that the library takes.
struct Piece<'a> {
    steps: usize,
    words: [u32; STEP_WORDS * STEPS],
    bytes: [u8; NAMES],
    used: usize,
    /// A name too long for the bytes here, which then is the one component.
    long: Option<&'a str>,
}

impl<'a> Piece<'a> {
    /// Nothing for a name that is longer than a word can say, which no image has.
    fn new(path: &[Step<'a>]) -> Option<Self> {
        let mut piece = Piece { steps: 0, words: [0; STEP_WORDS * STEPS], bytes: [0; NAMES], used: 0, long: None };
        for step in path.iter().take(STEPS) {
            let at = piece.used;
            match step {
                Step::Name(name) if name.len() <= NAMES - at => piece.name(name),
                Step::Name(_) if piece.steps > 0 => break,
                Step::Name(name) => piece.long = Some(name),
                _ => {}
            }
            piece.words[STEP_WORDS * piece.steps..][..STEP_WORDS].copy_from_slice(&step.words(at)?);
            piece.steps += 1;
            if piece.long.is_some() {
                break;
            }
        }
        Some(piece)
    }

    fn name(&mut self, name: &str) {
        self.bytes[self.used..][..name.len()].copy_from_slice(name.as_bytes());
        self.used += name.len();
    }

    fn names(&self) -> &[u8] {
        match self.long {
            Some(name) => name.as_bytes(),
            None => &self.bytes[..self.used],
        }
    }
}

/// The node at the end of a path, up to 16 components a call of `walk`, which takes origin, whether the path is relative,
/// components and names.
pub(crate) fn resolve(
    origin: u32,
    relative: bool,
    path: &[Step<'_>],
    walk: impl Fn(u32, bool, &[u32], &[u8]) -> Option<u32>,
    is_container: impl Fn(u32) -> bool,
) -> Option<u32> {
    let (mut at, mut relative, mut rest) = (origin, relative, path);
    loop {
        let piece = Piece::new(rest)?;
        at = walk(at, relative, &piece.words[..STEP_WORDS * piece.steps], piece.names())?;
        rest = &rest[piece.steps..];
        // the next call goes on here: from a node that is no container only a step to the parent leads on, and a
        // relative walk from such a node begins with that step
        match rest.first() {
            None => return Some(at),
            Some(step) if *step != Step::Parent && !is_container(at) => return None,
            Some(_) => relative = true,
        }
    }
}
