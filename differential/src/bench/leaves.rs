//! The leaves by themselves: checksum, UTF-8 and comparison of texts, against what Rust has for each. They are called
//! from the static library of crate `leaves`, where it has been built beside the others (tools/build leaves).

use super::Sheet;
use crate::random::Random;

#[cfg(not(leaves))]
pub fn run(_: &mut Random, _: &mut Sheet) {
    println!("leaves: no libleaves.a (tools/build leaves)");
}

#[cfg(leaves)]
pub use linked::run;

#[cfg(leaves)]
mod linked {
    use super::{Random, Sheet};
    use crate::bench::{OURS, black_box, timed};

    unsafe extern "C" {
        fn leaf_crc(bytes: *const u8, length: usize) -> u32;
        fn leaf_valid(bytes: *const u8, length: usize) -> bool;
        fn leaf_equal(a: *const u8, a_length: usize, b: *const u8, b_length: usize) -> bool;
        fn leaf_before(a: *const u8, a_length: usize, b: *const u8, b_length: usize) -> bool;
    }

    // SAFETY of all four: the slices live through the call, and nothing is written.
    fn crc(bytes: &[u8]) -> u32 {
        unsafe { leaf_crc(bytes.as_ptr(), bytes.len()) }
    }
    fn valid(bytes: &[u8]) -> bool {
        unsafe { leaf_valid(bytes.as_ptr(), bytes.len()) }
    }
    fn equal(a: &[u8], b: &[u8]) -> bool {
        unsafe { leaf_equal(a.as_ptr(), a.len(), b.as_ptr(), b.len()) }
    }
    fn before(a: &[u8], b: &[u8]) -> bool {
        unsafe { leaf_before(a.as_ptr(), a.len(), b.as_ptr(), b.len()) }
    }

    /// Lengths of texts.
    const LENGTHS: [usize; 11] = [3, 5, 8, 16, 24, 34, 40, 64, 500, 4_096, 65_536];

    /// About so many bytes are read in a round, so that the clock does not count.
    const ROUND: usize = 200_000;

    pub fn run(random: &mut Random, sheet: &mut Sheet) {
        (sheet.input, sheet.long) = ("leaves", sheet.long / 8);
        checksums(random, sheet);
        texts(random, sheet);
        comparisons(sheet);
    }

    /// The words of the table, by shifts.
    fn table() -> [u32; 256] {
        std::array::from_fn(|entry| {
            (0..8).fold(entry as u32, |word, _| if word % 2 == 1 { word / 2 ^ 0xedb8_8320 } else { word / 2 })
        })
    }

    fn plain_crc(table: &[u32; 256], bytes: &[u8]) -> u32 {
        let step = |crc: u32, byte: &u8| crc >> 8 ^ table[(crc as u8 ^ byte) as usize];
        !bytes.iter().fold(!0, step)
    }

    fn checksums(random: &mut Random, sheet: &mut Sheet) {
        println!("checksum: ours against a loop over the table, byte by byte");
        let table = table();
        for length in [16, 63, 64, 140, 1_024, 65_536, 1 << 20] {
            let bytes: Vec<u8> = (0..length).map(|_| random.below(256) as u8).collect();
            assert_eq!(plain_crc(&table, &bytes), crc(&bytes));
            let turns = 1 + ROUND / length;
            let theirs =
                || timed(|| (0..turns).fold(0, |sum, _| sum ^ plain_crc(black_box(&table), black_box(&bytes))));
            let ours = || timed(|| (0..turns).fold(0, |sum, _| sum ^ crc(black_box(&bytes))));
            sheet.duel(&format!("{turns} of {length} bytes"), ["loop", OURS], theirs, Some(ours));
        }
    }

    /// Characters of one kind.
    fn character(kind: &str, random: &mut Random) -> char {
        let number = match kind {
            "ASCII" => 32 + random.below(95),
            "Latin" if random.once_in(8) => 0xc0 + random.below(64),
            "Latin" => 97 + random.below(26),
            "CJK" => 0x4e00 + random.below(0x5000),
            _ => random.below(0x11_0000),
        };
        char::from_u32(number as u32).unwrap_or('a')
    }

    /// A text of so many bytes: the last ones are ASCII where no character fits.
    fn text(kind: &str, length: usize, random: &mut Random) -> String {
        let mut text = String::new();
        while text.len() < length {
            let next = character(kind, random);
            text.push(if text.len() + next.len_utf8() <= length { next } else { 'a' });
        }
        text
    }

    fn texts(random: &mut Random, sheet: &mut Sheet) {
        for kind in ["ASCII", "Latin", "CJK", "any"] {
            println!("valid: ours against core::str::from_utf8, {kind} characters");
            for length in LENGTHS {
                let count = 4.max(ROUND / length).min(4_096);
                let texts: Vec<String> = (0..count).map(|_| text(kind, length, random)).collect();
                assert!(texts.iter().all(|text| valid(text.as_bytes())));
                let is_text = |text: &&String| core::str::from_utf8(black_box(text.as_bytes())).is_ok();
                let theirs = || timed(|| texts.iter().filter(is_text).count());
                let ours = || timed(|| texts.iter().filter(|text| valid(black_box(text.as_bytes()))).count());
                sheet.duel(&format!("{count} of {length} bytes"), ["core", OURS], theirs, Some(ours));
            }
        }
    }

    fn comparisons(sheet: &mut Sheet) {
        for last in [true, false] {
            println!("{}: ours against slices of bytes", if last { "before, the last byte differs" } else { "equal" });
            for length in LENGTHS {
                let a = vec![b'a'; length];
                let mut b = a.clone();
                b[length - 1] += u8::from(last);
                let turns = 1 + ROUND / length;
                let less = || timed(|| (0..turns).filter(|_| black_box(&a) < black_box(&b)).count());
                let same = || timed(|| (0..turns).filter(|_| black_box(&a) == black_box(&b)).count());
                let ours_less = || timed(|| (0..turns).filter(|_| before(black_box(&a), black_box(&b))).count());
                let ours_same = || timed(|| (0..turns).filter(|_| equal(black_box(&a), black_box(&b))).count());
                let name = format!("{turns} of {length} bytes");
                match last {
                    true => sheet.duel(&name, ["core", OURS], less, Some(ours_less)),
                    false => sheet.duel(&name, ["core", OURS], same, Some(ours_same)),
                }
            }
        }
    }
}
