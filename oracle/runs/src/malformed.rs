//! Lines that are no call, made by spoiling one that is.

use crate::hashes::{digits, hashes, PREFIX};
use crate::random::Random;
use harness::LONGEST_LINE;

/// Bytes that stand in no call, and bytes that stand only at their places.
const BYTES: &[u8] = b"\r\t\0\x7f\x80\xc3\xff ()-0a9fAFnxXZ_'\"+.,";

/// The bytes next to the ranges of hex digits.
const NEXT_TO_DIGITS: &[u8; 6] = b"/:@G`g";

/// A hash as it was written before it had a `0x`.
pub(crate) const ZEROS: &[u8; 64] = &[b'0'; 64];

/// Spoil `line`. Now and then it is still a call, only another one.
pub(crate) fn spoil(line: &mut Vec<u8>, random: &mut Random) {
    match random.below(20) {
        0 => line.clear(),
        1 | 2 => {
            let at = random.below(line.len());
            line[at] = random.pick(BYTES);
        }
        3 | 4 => line.insert(random.below(line.len() + 1), random.pick(BYTES)),
        5 => {
            line.remove(random.below(line.len()));
        }
        6 => line.truncate(random.below(line.len())),
        7 => line.extend_from_within(..),
        8 => spoil_a_space(line, random),
        9 => surround(line, random),
        10 | 11 => replace_a_decimal(line, random),
        12 => raise_a_letter(line, random),
        13..17 => spoil_a_hash(line, random),
        17 => lengthen(line, random),
        18 => replace_a_word(line, random),
        _ => garbage(line, random),
    }
}

/// The positions of `line` whose byte fits.
pub(crate) fn positions(line: &[u8], fits: impl Fn(u8) -> bool) -> Vec<usize> {
    let found = line.iter().enumerate().filter(|(_, byte)| fits(**byte));
    found.map(|(at, _)| at).collect()
}

/// Double a space, or put another blank in its place.
fn spoil_a_space(line: &mut Vec<u8>, random: &mut Random) {
    let spaces = positions(line, |byte| byte == b' ');
    if spaces.is_empty() {
        return;
    }
    let at = random.pick(&spaces);
    if random.chance(50) {
        line.insert(at, b' ');
    } else {
        line[at] = random.pick(b"\t\r\0\xa0");
    }
}

fn surround(line: &mut Vec<u8>, random: &mut Random) {
    let byte = random.pick(b" \r\t\0()");
    if random.chance(50) {
        line.insert(0, byte);
    } else {
        line.push(byte);
    }
}

/// Put a decimal out of range, at the end of the range, or after a zero.
fn replace_a_decimal(line: &mut Vec<u8>, random: &mut Random) {
    let words = words(line);
    let decimals: Vec<_> = words
        .into_iter()
        .filter(|word| word.len() <= 20 && line[word.clone()].iter().all(u8::is_ascii_digit))
        .collect();
    if decimals.is_empty() {
        return;
    }
    let at = decimals[random.below(decimals.len())].clone();
    let digits = line[at.clone()].to_vec();
    let number = match random.below(6) {
        0 => b"18446744073709551616".to_vec(),
        1 => b"18446744073709551615".to_vec(),
        2 => b"99999999999999999999".to_vec(),
        3 => b"184467440737095516160000000016".to_vec(),
        4 => [b"0".as_slice(), &digits].concat(),
        _ => [b"-".as_slice(), &digits].concat(),
    };
    line.splice(at, number);
}

/// Write the first letter of a word that is no hash as its capital, or another, or all.
fn raise_a_letter(line: &mut [u8], random: &mut Random) {
    let mut words = words(line);
    words.retain(|word| line[word.clone()].iter().all(|byte| !byte.is_ascii_digit()));
    if words.is_empty() {
        return;
    }
    let word = words[random.below(words.len())].clone();
    let word = match random.below(4) {
        0 => word,
        1 => word.start..word.start + 1,
        _ => {
            let at = word.start + random.below(word.len());
            at..at + 1
        }
    };
    line[word].make_ascii_uppercase();
}

/// Write a hash otherwise; where the line has none, spoil another word.
fn spoil_a_hash(line: &mut Vec<u8>, random: &mut Random) {
    let hashes = hashes(line);
    if hashes.is_empty() {
        raise_a_letter(line, random);
        return;
    }
    let hash = hashes[random.below(hashes.len())].clone();
    let digits = digits(&hash);
    let prefix = hash.start..digits.start;
    let at = digits.start + random.below(digits.len());
    match random.below(12) {
        0 | 1 => drop(line.drain(prefix)),
        2 => line[prefix].make_ascii_uppercase(),
        3 => drop(line.remove(prefix.start)),
        4 => line[prefix].copy_from_slice(b"00"),
        5 => drop(line.splice(prefix.start..prefix.start, PREFIX.iter().copied())),
        6 => drop(line.drain(digits)),
        7 => drop(line.remove(at)),
        8 => line.insert(at, random.pick(b"0123456789abcdefABCDEF")),
        _ => line[at] = random.pick(NEXT_TO_DIGITS),
    }
}

/// Pad to a length at the limit or far above it.
fn lengthen(line: &mut Vec<u8>, random: &mut Random) {
    let lengths = [LONGEST_LINE - 1, LONGEST_LINE, LONGEST_LINE + 1, 1024, 5000];
    let length = random.pick(&lengths);
    line.resize(length, random.pick(b" 0)a\xff"));
}

/// Put another word, or none, where a word stands.
fn replace_a_word(line: &mut Vec<u8>, random: &mut Random) {
    let words = words(line);
    if words.is_empty() {
        return;
    }
    let at = words[random.below(words.len())].clone();
    let others: [&[u8]; 13] = [
        b"none",
        b"None",
        b"0x",
        ZEROS,
        b"no-hash",
        b"(rpc 0)",
        b"(decode 1)",
        b"(7 none)",
        b"0",
        b"16",
        b"sheet",
        b"snapshots",
        b"",
    ];
    line.splice(at, random.pick(&others).iter().copied());
}

/// Random bytes, of any value but the line feed.
fn garbage(line: &mut Vec<u8>, random: &mut Random) {
    line.clear();
    for _ in 0..random.below(40) {
        let byte = random.number() as u8;
        line.push(if byte == b'\n' { b'(' } else { byte });
    }
}

/// The spans between spaces and brackets.
pub(crate) fn words(line: &[u8]) -> Vec<std::ops::Range<usize>> {
    let mut words = Vec::new();
    let mut start = 0;
    let ends = positions(line, |byte| matches!(byte, b' ' | b'(' | b')'));
    for end in ends.into_iter().chain([line.len()]) {
        if end > start {
            words.push(start..end);
        }
        start = end + 1;
    }
    words
}
