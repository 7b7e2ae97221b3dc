//! Damages to the text of a sheet, whatever it shows.

use crate::filter::without_numbers;
use crate::hashes::{digits, hashes};
use crate::malformed::{positions, words, ZEROS};
use crate::random::Random;
use std::ops::Range;

/// Bytes that stand somewhere in a sheet, and some that stand in none.
const BYTES: &[u8] = b"0123456789abcdef ()\nnopstuwx-\r\t\0\x80\xffAFXZ+,/:@G`g";

/// Words that stand somewhere in a sheet, and some that stand in none.
const WORDS: [&[u8]; 32] = [
    b"none",
    b"None",
    b"0x",
    ZEROS,
    b"open",
    b"abandoned",
    b"ended",
    b"parked",
    b"free",
    b"unclaimed",
    b"preparing",
    b"settled",
    b"current",
    b"superseded",
    b"installed",
    b"previous",
    b"wait",
    b"count",
    b"ready",
    b"unprepared",
    b"undelivered",
    b"cold",
    b"carried",
    b"linked",
    b"no-parent",
    b"not-consecutive",
    b"hash-unknown",
    b"hash-mismatch",
    b"no-hash",
    b"rpc",
    b"(decode 1)",
    b"(7 none)",
];

/// What may stand after a sheet.
const AFTER: [&[u8]; 9] = [
    b"\n",
    b" ",
    b"\0",
    b")",
    b"x",
    b"\r\n",
    b"(sheet)\n",
    b"(wait 15 parked)\n",
    b"(wait 15 ended (7 none))",
];

pub(crate) fn byte_changed(text: &mut [u8], random: &mut Random) {
    let at = random.below(text.len());
    text[at] = byte(random);
}

pub(crate) fn byte_dropped(text: &mut Vec<u8>, random: &mut Random) {
    text.remove(random.below(text.len()));
}

pub(crate) fn byte_doubled(text: &mut Vec<u8>, random: &mut Random) {
    let at = random.below(text.len());
    text.insert(at, text[at]);
}

pub(crate) fn byte_put_in(text: &mut Vec<u8>, random: &mut Random) {
    let at = random.below(text.len() + 1);
    text.insert(at, byte(random));
}

fn byte(random: &mut Random) -> u8 {
    if random.chance(80) {
        random.pick(BYTES)
    } else {
        random.number() as u8
    }
}

/// A decimal digit becomes another, in a number or a hash: mostly the sheet stays one.
pub(crate) fn digit_changed(text: &mut [u8], random: &mut Random) {
    let digits = positions(text, |byte| byte.is_ascii_digit());
    if !digits.is_empty() {
        text[random.pick(&digits)] = random.pick(b"0123456789");
    }
}

pub(crate) fn lines_swapped(text: &mut Vec<u8>, random: &mut Random) {
    let mut lines = lines(text);
    let (one, other) = (random.below(lines.len()), random.below(lines.len()));
    lines.swap(one, other);
    *text = lines.concat();
}

pub(crate) fn line_dropped(text: &mut Vec<u8>, random: &mut Random) {
    let mut lines = lines(text);
    lines.remove(random.below(lines.len()));
    *text = lines.concat();
}

pub(crate) fn line_doubled(text: &mut Vec<u8>, random: &mut Random) {
    let mut lines = lines(text);
    let at = random.below(lines.len());
    lines.insert(at, lines[at].clone());
    *text = lines.concat();
}

/// An empty line, which no sheet has.
pub(crate) fn line_put_in(text: &mut Vec<u8>, random: &mut Random) {
    let mut lines = lines(text);
    lines.insert(random.below(lines.len() + 1), b"\n".to_vec());
    *text = lines.concat();
}

fn lines(text: &[u8]) -> Vec<Vec<u8>> {
    let lines = text.split_inclusive(|byte| *byte == b'\n');
    lines.map(<[u8]>::to_vec).collect()
}

pub(crate) fn number_one_above(text: &mut Vec<u8>, random: &mut Random) {
    replace_a_number(text, random, |number, _| {
        (u128::from(number) + 1).to_string()
    });
}

pub(crate) fn number_one_below(text: &mut Vec<u8>, random: &mut Random) {
    replace_a_number(text, random, |number, _| {
        number.saturating_sub(1).to_string()
    });
}

pub(crate) fn number_at_end(text: &mut Vec<u8>, random: &mut Random) {
    replace_a_number(text, random, |_, _| u64::MAX.to_string());
}

pub(crate) fn number_over_end(text: &mut Vec<u8>, random: &mut Random) {
    replace_a_number(text, random, |number, random| {
        let over = [
            1 << 64,
            u128::from(number) + (1 << 64),
            99_999_999_999_999_999_999,
        ];
        random.pick(&over).to_string()
    });
}

pub(crate) fn number_zero(text: &mut Vec<u8>, random: &mut Random) {
    replace_a_number(text, random, |_, _| "0".to_owned());
}

pub(crate) fn number_with_leading_zero(text: &mut Vec<u8>, random: &mut Random) {
    replace_a_number(text, random, |number, _| format!("0{number}"));
}

fn replace_a_number(
    text: &mut Vec<u8>,
    random: &mut Random,
    other: impl Fn(u64, &mut Random) -> String,
) {
    let numbers: Vec<_> = words(text)
        .into_iter()
        .filter_map(|word| Some((number(text, &word)?, word)))
        .collect();
    if numbers.is_empty() {
        return;
    }
    let (number, word) = numbers[random.below(numbers.len())].clone();
    let other = other(number, random);
    text.splice(word, other.into_bytes());
}

fn number(text: &[u8], word: &Range<usize>) -> Option<u64> {
    std::str::from_utf8(&text[word.clone()]).ok()?.parse().ok()
}

pub(crate) fn word_replaced(text: &mut Vec<u8>, random: &mut Random) {
    let words = words(text);
    if words.is_empty() {
        return;
    }
    let at = words[random.below(words.len())].clone();
    text.splice(at, random.pick(&WORDS).iter().copied());
}

/// One of a sheet's hashes and where its digits stand.
fn a_hash(text: &[u8], random: &mut Random) -> Option<(Range<usize>, Range<usize>)> {
    let hashes = hashes(text);
    let at = (!hashes.is_empty()).then(|| random.below(hashes.len()))?;
    Some((hashes[at].clone(), digits(&hashes[at])))
}

/// A letter of a hash in capitals, or all letters of one, or of each.
pub(crate) fn capital_digit(text: &mut [u8], random: &mut Random) {
    let of_all: Vec<_> = hashes(text).iter().flat_map(digits).collect();
    let letters: Vec<_> = of_all
        .into_iter()
        .filter(|at| text[*at].is_ascii_lowercase())
        .collect();
    if letters.is_empty() {
        return;
    }
    let one = random.pick(&letters);
    let among: Vec<_> = match random.below(3) {
        0 => vec![one],
        1 => {
            let hashes = hashes(text);
            let hash = hashes.into_iter().find(|hash| hash.contains(&one));
            hash.as_ref().map(digits).into_iter().flatten().collect()
        }
        _ => letters,
    };
    among
        .into_iter()
        .for_each(|at| text[at].make_ascii_uppercase());
}

/// A hash as it was written before it had a `0x`.
pub(crate) fn hash_bare(text: &mut Vec<u8>, random: &mut Random) {
    if let Some((hash, digits)) = a_hash(text, random) {
        text.drain(hash.start..digits.start);
    }
}

pub(crate) fn hash_with_capital_x(text: &mut [u8], random: &mut Random) {
    if let Some((hash, digits)) = a_hash(text, random) {
        text[hash.start..digits.start].make_ascii_uppercase();
    }
}

pub(crate) fn hash_of_63_digits(text: &mut Vec<u8>, random: &mut Random) {
    if let Some((_, digits)) = a_hash(text, random) {
        text.remove(digits.start + random.below(digits.len()));
    }
}

pub(crate) fn hash_of_65_digits(text: &mut Vec<u8>, random: &mut Random) {
    if let Some((_, digits)) = a_hash(text, random) {
        let at = digits.start + random.below(digits.len() + 1);
        text.insert(at, random.pick(b"0123456789abcdef"));
    }
}

/// A hash with other beginnings or with no digit, or with a byte that is next to the digits.
pub(crate) fn hash_ill_written(text: &mut Vec<u8>, random: &mut Random) {
    let Some((hash, digits)) = a_hash(text, random) else {
        return;
    };
    let at = digits.start + random.below(digits.len());
    match random.below(8) {
        0 => drop(text.drain(digits)),
        1 => drop(text.remove(hash.start)),
        2 => text[hash.start..digits.start].copy_from_slice(b"00"),
        3 => drop(text.splice(hash.start..hash.start, *b"0x")),
        _ => text[at] = random.pick(b"/:@G`g"),
    }
}

/// A letter that is no digit in capitals, or all letters of its word.
pub(crate) fn capital_letter(text: &mut [u8], random: &mut Random) {
    let mut words = words(text);
    words.retain(|word| text[word.clone()].iter().any(u8::is_ascii_lowercase));
    words.retain(|word| !text[word.clone()].starts_with(b"0x"));
    if words.is_empty() {
        return;
    }
    let word = words[random.below(words.len())].clone();
    let letters: Vec<_> = word
        .clone()
        .filter(|at| text[*at].is_ascii_lowercase())
        .collect();
    let at = random.pick(&letters);
    let letters = random.pick(&[word.start, at]);
    let letters = if random.chance(50) {
        word
    } else {
        letters..letters + 1
    };
    text[letters].make_ascii_uppercase();
}

/// Each `none` with a capital.
pub(crate) fn capital_none(text: &mut [u8], random: &mut Random) {
    let mut nones = words(text);
    nones.retain(|word| &text[word.clone()] == b"none");
    if nones.is_empty() {
        return;
    }
    let none = nones[random.below(nones.len())].clone();
    let to = none.start + random.pick(&[1, 4]);
    text[none.start..to].make_ascii_uppercase();
}

pub(crate) fn space_doubled(text: &mut Vec<u8>, random: &mut Random) {
    let spaces = positions(text, |byte| byte == b' ');
    if !spaces.is_empty() {
        text.insert(random.pick(&spaces), b' ');
    }
}

pub(crate) fn return_before_feed(text: &mut Vec<u8>, random: &mut Random) {
    let feeds = positions(text, |byte| byte == b'\n');
    if !feeds.is_empty() {
        text.insert(random.pick(&feeds), b'\r');
    }
}

pub(crate) fn last_feed_dropped(text: &mut Vec<u8>, _: &mut Random) {
    text.pop();
}

pub(crate) fn cut_short(text: &mut Vec<u8>, random: &mut Random) {
    text.truncate(random.below(text.len()));
}

/// Cut short at the end of a line: before the waiters the sheet may stay one.
pub(crate) fn last_line_dropped(text: &mut Vec<u8>, _: &mut Random) {
    let mut lines = lines(text);
    lines.pop();
    *text = lines.concat();
}

pub(crate) fn bytes_after(text: &mut Vec<u8>, random: &mut Random) {
    text.extend_from_slice(random.pick(&AFTER));
}

pub(crate) fn bytes_before(text: &mut Vec<u8>, random: &mut Random) {
    let before: [&[u8]; 5] = [b"\n", b" ", b"\0", b"\xef\xbb\xbf", b"(sheet)\n"];
    text.splice(0..0, random.pick(&before).iter().copied());
}

/// As long as the longest sheet could be, or longer.
pub(crate) fn lengthened(text: &mut Vec<u8>, random: &mut Random) {
    let length = random.pick(&[4_095, 4_096, 4_097, 5_000, 70_000]);
    text.resize(length, random.pick(b" \n\0x"));
}

pub(crate) fn twice(text: &mut Vec<u8>, _: &mut Random) {
    text.extend_from_within(..);
}

// Damages to the line of one part.

/// A sheet as it was written before generations had settle numbers.
pub(crate) fn settle_numbers_struck(text: &mut Vec<u8>, _: &mut Random) {
    *text = without_numbers(text);
}

/// A waiter above the last one.
pub(crate) fn waiter_16(text: &mut Vec<u8>, random: &mut Random) {
    let waiters: [&[u8]; 3] = [
        b"(wait 16 parked)\n",
        b"(wait 16 ended (7 none))\n",
        b"(wait 17 abandoned (7 none))\n",
    ];
    text.extend_from_slice(random.pick(&waiters));
}

/// The last waiter written otherwise.
pub(crate) fn waiter_ill_written(text: &mut Vec<u8>, random: &mut Random) {
    let waiters: [&[u8]; 10] = [
        b"(wait 15 free)\n",
        b"(wait 15 none)\n",
        b"(wait 15 parked (7 none))\n",
        b"(wait 15 ended)\n",
        b"(wait 15 ended none)\n",
        b"(wait 15 settled (7 none))\n",
        b"(wait 015 ended (7 none))\n",
        b"(wait 271 ended (7 none))\n",
        b"(wait 18446744073709551631 ended (7 none))\n",
        b"(waiter 15 ended (7 none))\n",
    ];
    last_line_dropped(text, random);
    text.extend_from_slice(random.pick(&waiters));
}

pub(crate) fn last_line_doubled(text: &mut Vec<u8>, _: &mut Random) {
    let mut lines = lines(text);
    lines.extend_from_within(lines.len() - 1..);
    *text = lines.concat();
}

pub(crate) fn last_lines_swapped(text: &mut Vec<u8>, _: &mut Random) {
    let mut lines = lines(text);
    let last = lines.len() - 1;
    lines.swap(last.saturating_sub(1), last);
    *text = lines.concat();
}

/// `linked` in a cold readiness, where no fault of the link is `none`.
pub(crate) fn linked_in_cold(text: &mut Vec<u8>, _: &mut Random) {
    change_line(text, b"(installed ", |line| {
        line.replace("(cold none ", "(cold linked ")
    });
}

/// A readiness that no installed or previous generation has.
pub(crate) fn readiness_of_no_generation(text: &mut Vec<u8>, random: &mut Random) {
    let words = ["unprepared", "superseded", "undelivered", "abandoned"];
    let word = random.pick(&words);
    let begin = random.pick(&[b"(installed ".as_slice(), b"(previous "]);
    change_line(text, begin, |line| {
        let before: Vec<_> = line.split(' ').take(5).collect();
        format!("{} {word})\n", before.join(" "))
    });
}

/// The end of an attempt, which no preparing head shows.
pub(crate) fn end_of_preparing(text: &mut Vec<u8>, random: &mut Random) {
    let end = random.pick(&["open", "abandoned", "none"]);
    change_line(text, b"(current ", |line| {
        line.replace(")\n", &format!(" {end})\n"))
    });
}

fn change_line(text: &mut Vec<u8>, begin: &[u8], change: impl Fn(&str) -> String) {
    let mut lines = lines(text);
    for line in lines.iter_mut().filter(|line| line.starts_with(begin)) {
        *line = change(&String::from_utf8_lossy(line)).into_bytes();
    }
    *text = lines.concat();
}
