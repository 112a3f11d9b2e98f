//! Row 6: the checksum, CRC-32 of all bytes but its own four.

use super::Rule;
use super::place::Broken;
use super::sections::{HEADER, word_at};

const AT: usize = 84;

const TABLE: [u32; 256] = table();

const fn table() -> [u32; 256] {
    let mut table = [0; 256];
    let mut byte = 0;
    while byte < 256 {
        let (mut rest, mut bit) = (byte as u32, 0);
        while bit < 8 {
            rest = if rest & 1 == 1 { rest >> 1 ^ 0xedb8_8320 } else { rest >> 1 };
            bit += 1;
        }
        table[byte] = rest;
        byte += 1;
    }
    table
}

fn checksum(bytes: &[u8]) -> u32 {
    let covered = bytes[..AT].iter().chain(&bytes[HEADER..]);
    !covered.fold(u32::MAX, |sum, byte| sum >> 8 ^ TABLE[(sum as u8 ^ byte) as usize])
}

pub fn rule(bytes: &[u8]) -> Rule {
    let (said, is) = (word_at(bytes, AT), checksum(bytes));
    if said == is {
        return Ok(());
    }
    let because = format!("{said:08x}; the bytes have {is:08x} (hexadecimal)");
    Err(Broken::in_header(6, "checksum", "checksum", AT, because))
}
