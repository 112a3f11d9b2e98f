//! What the header of an image says.

/// Where a section lies in the image's bytes, and how many entries it has.
#[derive(Clone, Copy, Debug, Default, PartialEq, Eq)]
pub struct Section {
    pub offset: u32,
    pub count: u32,
}

/// The ink version, and the sections.
#[derive(Clone, Copy, Debug, Default, PartialEq, Eq)]
pub struct View {
    pub ink_version: u32,
    pub nodes: Section,
    pub children: Section,
    pub named: Section,
    pub definitions: Section,
    pub items: Section,
    pub index: Section,
    pub payload: Section,
    pub strings: Section,
}

impl View {
    /// As many words the library takes and writes: the ink version, then offset and count of each section.
    pub const WORDS: usize = 17;

    pub fn words(&self) -> [u32; View::WORDS] {
        let sections = [
            self.nodes,
            self.children,
            self.named,
            self.definitions,
            self.items,
            self.index,
            self.payload,
            self.strings,
        ];
        let mut words = [self.ink_version; View::WORDS];
        for (pair, section) in words[1..].chunks_exact_mut(2).zip(sections) {
            pair.copy_from_slice(&[section.offset, section.count]);
        }
        words
    }
}

impl From<[u32; View::WORDS]> for View {
    fn from(words: [u32; View::WORDS]) -> Self {
        let section = |k: usize| Section { offset: words[1 + 2 * k], count: words[2 + 2 * k] };
        View {
            ink_version: words[0],
            nodes: section(0),
            children: section(1),
            named: section(2),
            definitions: section(3),
            items: section(4),
            index: section(5),
            payload: section(6),
            strings: section(7),
        }
    }
}
