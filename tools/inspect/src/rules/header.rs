//! Rows 1 to 5: the header.

use super::place::Broken;
use super::sections::{HEADER, Image, Section, word_at};

const MAGIC: &[u8; 8] = b"BLINKIMG";
pub const VERSION: u32 = 2;

/// All of them; then every section lies inside the bytes.
pub fn rules(bytes: &[u8]) -> Result<Image<'_>, Broken> {
    whole_header(bytes)?;
    magic(bytes)?;
    format_version(bytes)?;
    ink_version(bytes)?;
    total_length(bytes)?;
    let mut end = HEADER;
    for section in Section::ALL {
        end = section_start_and_end(bytes, section, end)?;
    }
    no_bytes_over(bytes, end)?;
    some_node(bytes)?;
    Ok(Image { bytes })
}

fn whole_header(bytes: &[u8]) -> Result<(), Broken> {
    if bytes.len() >= HEADER {
        return Ok(());
    }
    let because = format!("{} bytes; a header has {HEADER}", bytes.len());
    Err(Broken::in_header(1, "whole header", "end of the bytes", bytes.len(), because))
}

fn magic(bytes: &[u8]) -> Result<(), Broken> {
    match (0..8).find(|at| bytes[*at] != MAGIC[*at]) {
        None => Ok(()),
        Some(at) => {
            let because = format!("the byte is {}; in BLINKIMG it is {}", bytes[at], MAGIC[at]);
            Err(Broken::in_header(1, "magic", "magic", at, because))
        }
    }
}

fn format_version(bytes: &[u8]) -> Result<(), Broken> {
    let version = word_at(bytes, 8);
    if version == VERSION {
        return Ok(());
    }
    Err(Broken::in_header(2, "format version", "format version", 8, format!("{version}; {VERSION} is due")))
}

fn ink_version(bytes: &[u8]) -> Result<(), Broken> {
    let version = word_at(bytes, 12);
    if (18..=21).contains(&version) {
        return Ok(());
    }
    Err(Broken::in_header(3, "ink version", "ink version", 12, format!("{}; 18 to 21 are read", version as i32)))
}

fn total_length(bytes: &[u8]) -> Result<(), Broken> {
    let total = word_at(bytes, 16);
    if total as usize == bytes.len() {
        return Ok(());
    }
    Err(Broken::in_header(4, "total length", "total length", 16, format!("{total}; there are {} bytes", bytes.len())))
}

/// Begins where the one before ends, and ends inside; gives its end.
fn section_start_and_end(bytes: &[u8], section: Section, start: usize) -> Result<usize, Broken> {
    let (offset, count) = (word_at(bytes, section.offset_at()), word_at(bytes, section.count_at()));
    if offset as usize != start {
        let because = format!("{offset}; the part before ends at {start}");
        let field = format!("offset of {}", section.name());
        return Err(Broken::in_header(5, "section start", field, section.offset_at(), because));
    }
    let end = start + count as usize * section.entry_size();
    if end > bytes.len() {
        let size = section.entry_size();
        let because =
            format!("{count} entries of {size} bytes from {start} end at {end}; there are {} bytes", bytes.len());
        let field = format!("count of {}", section.name());
        return Err(Broken::in_header(5, "section end", field, section.count_at(), because));
    }
    Ok(end)
}

fn no_bytes_over(bytes: &[u8], end: usize) -> Result<(), Broken> {
    if end == bytes.len() {
        return Ok(());
    }
    let because = format!("the last section ends at {end}; there are {} bytes", bytes.len());
    let field = format!("count of {}", Section::Strings.name());
    Err(Broken::in_header(5, "bytes left over", field, Section::Strings.count_at(), because))
}

fn some_node(bytes: &[u8]) -> Result<(), Broken> {
    if word_at(bytes, Section::Nodes.count_at()) > 0 {
        return Ok(());
    }
    let field = format!("count of {}", Section::Nodes.name());
    Err(Broken::in_header(5, "some node", field, Section::Nodes.count_at(), "0; there is no root".to_owned()))
}
