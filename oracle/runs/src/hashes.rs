//! The hashes of a text, and the case of their digits.

use crate::malformed::words;
use crate::random::Random;
use std::ops::Range;

/// What stands before the digits of a hash.
pub(crate) const PREFIX: &[u8] = b"0x";

/// A hash has so many bytes, its `0x` with.
pub(crate) const LENGTH: usize = 66;

/// Where the hashes stand in a text: the words that are `0x` and as many bytes as a hash has
/// digits.
pub(crate) fn hashes(text: &[u8]) -> Vec<Range<usize>> {
    let words = words(text).into_iter();
    let is_hash =
        |word: &Range<usize>| word.len() == LENGTH && text[word.clone()].starts_with(PREFIX);
    words.filter(is_hash).collect()
}

/// The digits of a hash that stands there.
pub(crate) const fn digits(hash: &Range<usize>) -> Range<usize> {
    hash.start + PREFIX.len()..hash.end
}

/// Give the letters among the digits of each hash a random case: all are small, or all are
/// capitals, or each goes by itself.
pub(crate) fn vary_case(line: &mut [u8], random: &mut Random) {
    for hash in hashes(line) {
        let digits = &mut line[digits(&hash)];
        match random.below(3) {
            0 => digits.make_ascii_lowercase(),
            1 => digits.make_ascii_uppercase(),
            _ => digits.iter_mut().for_each(|digit| {
                if random.chance(50) {
                    digit.make_ascii_uppercase();
                } else {
                    digit.make_ascii_lowercase();
                }
            }),
        }
    }
}

/// Write the hashes of a call as those of another line stand that has the same hashes.
pub(crate) fn copy_case(line: &mut [u8], other: &[u8]) {
    for (hash, written) in hashes(line).into_iter().zip(hashes(other)) {
        line[hash].copy_from_slice(&other[written]);
    }
}

#[cfg(test)]
mod tests {
    use super::*;

    const HASH: &str = "0x00112233445566778899aabbccddeeff0123456789abcdefabcdefabcdefabcd";

    fn line() -> String {
        format!("(link (7 {HASH}) (8 none) {HASH})")
    }

    #[test]
    fn hashes_are_found() {
        let line = line();
        let found = hashes(line.as_bytes());
        assert_eq!(found.len(), 2);
        assert!(found.iter().all(|hash| &line[hash.clone()] == HASH));
        assert!(hashes(b"(link none (8 none) 0x11)").is_empty());
        let bare = line.replace("0x", "");
        assert!(hashes(bare.as_bytes()).is_empty());
    }

    #[test]
    fn the_case_varies_and_nothing_else() {
        let line = line();
        let mut random = Random::new(1);
        let mut seen = [false; 3];
        for _ in 0..50 {
            let mut varied = line.clone().into_bytes();
            vary_case(&mut varied, &mut random);
            for hash in hashes(&varied) {
                let digits = &varied[digits(&hash)];
                let small = digits.iter().any(u8::is_ascii_lowercase);
                let capital = digits.iter().any(u8::is_ascii_uppercase);
                seen[usize::from(small) + 2 * usize::from(capital) - 1] = true;
            }
            // Only hashes have an x or a letter that was raised.
            assert_eq!(varied.to_ascii_lowercase(), line.as_bytes());
            assert!(varied.starts_with(b"(link (7 0x") && varied[..88].ends_with(b" (8 none) 0x"));
        }
        assert_eq!(seen, [true; 3], "small, capital and mixed");
    }

    #[test]
    fn the_case_is_copied() {
        let capital = format!("0x{}", HASH[2..].to_ascii_uppercase());
        let written = format!("(claim (7 {capital}) 1)");
        let mut line = format!("(claim (7 {HASH}) 22)").into_bytes();
        copy_case(&mut line, written.as_bytes());
        assert_eq!(line, format!("(claim (7 {capital}) 22)").as_bytes());
    }
}
