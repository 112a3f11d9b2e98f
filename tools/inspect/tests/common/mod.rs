//! The checksum of an image, for images that are made or changed here.

fn checksum(bytes: &[u8]) -> u32 {
    let covered = bytes[..84].iter().chain(&bytes[88..]);
    let step = |rest: u32| if rest & 1 == 1 { rest >> 1 ^ 0xedb8_8320 } else { rest >> 1 };
    !covered.fold(u32::MAX, |sum, byte| (0..8).fold(sum ^ u32::from(*byte), |rest, _| step(rest)))
}

/// Sets the checksum right.
pub fn repair(bytes: &mut [u8]) {
    let sum = checksum(bytes);
    bytes[84..88].copy_from_slice(&sum.to_le_bytes());
}
