//! An image in parts: its sections as words and bytes, put together into bytes with a right header.

use reference::Draft;

pub const NONE: u32 = u32::MAX;
pub const HEADER: usize = 88;
pub const ENTRY_SIZES: [usize; 8] = [40, 4, 12, 16, 12, 12, 1, 1];

#[derive(Clone, Debug, Default, PartialEq)]
pub struct Parts {
    pub ink: u32,
    pub nodes: Vec<[u32; 10]>,
    pub children: Vec<u32>,
    pub named: Vec<[u32; 3]>,
    pub definitions: Vec<[u32; 4]>,
    pub items: Vec<[u32; 3]>,
    pub index: Vec<[u32; 3]>,
    pub payload: Vec<u8>,
    pub strings: Vec<u8>,
}

fn put<const N: usize>(out: &mut Vec<u8>, entries: &[[u32; N]]) {
    for word in entries.iter().flatten() {
        out.extend_from_slice(&word.to_le_bytes());
    }
}

/// The words of a section, in entries.
fn entries<const N: usize>(bytes: &[u8], section: usize) -> Vec<[u32; N]> {
    part(bytes, section).chunks_exact(4 * N).map(|entry| std::array::from_fn(|k| word_at(entry, 4 * k))).collect()
}

/// The bytes of a section of a sound image.
fn part(bytes: &[u8], section: usize) -> &[u8] {
    let [start, count] = [20, 24].map(|at| word_at(bytes, at + 8 * section) as usize);
    &bytes[start..][..count * ENTRY_SIZES[section]]
}

impl Parts {
    /// The parts of an accepted image.
    pub fn of(bytes: &[u8]) -> Self {
        Parts {
            ink: word_at(bytes, 12),
            nodes: entries(bytes, 0),
            children: entries::<1>(bytes, 1).concat(),
            named: entries(bytes, 2),
            definitions: entries(bytes, 3),
            items: entries(bytes, 4),
            index: entries(bytes, 5),
            payload: part(bytes, 6).to_vec(),
            strings: part(bytes, 7).to_vec(),
        }
    }

    pub fn counts(&self) -> [usize; 8] {
        [
            self.nodes.len(),
            self.children.len(),
            self.named.len(),
            self.definitions.len(),
            self.items.len(),
            self.index.len(),
            self.payload.len(),
            self.strings.len(),
        ]
    }

    pub fn bytes(&self) -> Vec<u8> {
        let mut out = Vec::with_capacity(512);
        out.extend_from_slice(b"BLINKIMG");
        put(&mut out, &[[2, self.ink, 0]]);
        let mut offset = HEADER;
        for (count, size) in self.counts().into_iter().zip(ENTRY_SIZES) {
            put(&mut out, &[[offset as u32, count as u32]]);
            offset += count * size;
        }
        put(&mut out, &[[0]]);
        put(&mut out, &self.nodes);
        for child in &self.children {
            put(&mut out, &[[*child]]);
        }
        put(&mut out, &self.named);
        put(&mut out, &self.definitions);
        put(&mut out, &self.items);
        put(&mut out, &self.index);
        out.extend_from_slice(&self.payload);
        out.extend_from_slice(&self.strings);
        let total = out.len() as u32;
        out[16..20].copy_from_slice(&total.to_le_bytes());
        repair(&mut out);
        out
    }

    pub fn draft(&self) -> Draft {
        Draft {
            nodes: self.nodes.concat(),
            children: self.children.clone(),
            named: self.named.concat(),
            definitions: self.definitions.concat(),
            items: self.items.concat(),
            payload: self.payload.clone(),
            strings: self.strings.clone(),
        }
    }
}

pub fn word_at(bytes: &[u8], at: usize) -> u32 {
    u32::from_le_bytes(bytes[at..at + 4].try_into().unwrap())
}

pub fn set_word(bytes: &mut [u8], at: usize, word: u32) {
    bytes[at..at + 4].copy_from_slice(&word.to_le_bytes());
}

/// Sets the checksum right.
pub fn repair(bytes: &mut [u8]) {
    if bytes.len() >= HEADER {
        let sum = checksum(bytes);
        set_word(bytes, 84, sum);
    }
}

fn checksum(bytes: &[u8]) -> u32 {
    static TABLE: std::sync::OnceLock<[u32; 256]> = std::sync::OnceLock::new();
    let table = TABLE.get_or_init(|| {
        std::array::from_fn(|i| {
            (0..8).fold(i as u32, |rest, _| if rest & 1 == 1 { rest >> 1 ^ 0xedb8_8320 } else { rest >> 1 })
        })
    });
    let covered = bytes[..84].iter().chain(&bytes[88..]);
    !covered.fold(!0_u32, |sum, byte| sum >> 8 ^ table[(sum as u8 ^ byte) as usize])
}
