//! The settle numbers, which the published code does not have: struck out of a program's answers,
//! and put into the published code's sheets.

use std::ops::Range;

/// How a line with a settle number begins, and how many words stand before the number. An anchor
/// has a space inside, so it is two words.
const FORMS: [(&str, usize); 4] = [
    ("(view installed ", 3),
    ("(view previous ", 3),
    ("(installed (", 4),
    ("(previous (", 4),
];

/// The text with the settle numbers of its lines struck out, and every other byte as it was. A
/// line of the published code stays as it is, since in the number's place it has a readiness.
#[must_use]
pub fn without_numbers(text: &[u8]) -> Vec<u8> {
    let mut struck = Vec::with_capacity(text.len());
    for line in text.split_inclusive(|byte| *byte == b'\n') {
        let number = settle_number(line).unwrap_or(0..0);
        struck.extend_from_slice(&line[..number.start]);
        struck.extend_from_slice(&line[number.end..]);
    }
    struck
}

/// A sheet of the published code with settle numbers put in: that of the installed generation and
/// that of the previous one, for each that is there.
pub(crate) fn with_numbers(sheet: &str, numbers: [Option<u64>; 2]) -> String {
    let mut numbered = String::with_capacity(sheet.len());
    for line in sheet.split_inclusive('\n') {
        let number = match form(line.as_bytes()) {
            Some(("(installed (", before)) => numbers[0].zip(place(line, *before)),
            Some(("(previous (", before)) => numbers[1].zip(place(line, *before)),
            _ => None,
        };
        match number {
            Some((number, place)) => {
                let (before, readiness) = line.split_at(place);
                numbered.push_str(&format!("{before}{number} {readiness}"));
            }
            None => numbered.push_str(line),
        }
    }
    numbered
}

/// Where the word after so many stands.
fn place(line: &str, before: usize) -> Option<usize> {
    let space = line.match_indices(' ').nth(before.checked_sub(1)?);
    space.map(|(space, _)| space + 1)
}

/// Where a line has its settle number, the space after it with.
fn settle_number(line: &[u8]) -> Option<Range<usize>> {
    let (_, before) = form(line)?;
    let mut words = line.split(|byte| *byte == b' ');
    let start = words
        .by_ref()
        .take(*before)
        .map(|word| word.len() + 1)
        .sum();
    let number = words.next()?;
    // A space stands behind it; a last word is no number to strike.
    words.next()?;
    is_number(number).then(|| start..start + number.len() + 1)
}

fn form(line: &[u8]) -> Option<&'static (&'static str, usize)> {
    let begins = |(begin, _): &&(&str, usize)| line.starts_with(begin.as_bytes());
    FORMS.iter().find(begins)
}

/// Whether the word is a number as a line writes it: any other writing is left for the comparison.
fn is_number(word: &[u8]) -> bool {
    let text = std::str::from_utf8(word).unwrap_or_default();
    let number: Option<u64> = text.parse().ok();
    number.is_some_and(|number| number.to_string() == text)
}

#[cfg(test)]
mod tests {
    use super::*;
    use crate::generator::{generate, Recipe};

    /// Lines with a number, and without it.
    const NUMBERED: [(&str, &str); 12] = [
        ("(view installed 60 1 ready)", "(view installed 60 ready)"),
        (
            "(view installed 60 1 (cold no-parent (rpc 4)))",
            "(view installed 60 (cold no-parent (rpc 4)))",
        ),
        (
            "(view installed 0 0 abandoned)",
            "(view installed 0 abandoned)",
        ),
        ("(view previous 61 2 ready)", "(view previous 61 ready)"),
        (
            "(view previous 61 18446744073709551615 (cold none no-hash))",
            "(view previous 61 (cold none no-hash))",
        ),
        (
            "(view previous 5 5 abandoned)",
            "(view previous 5 abandoned)",
        ),
        (
            "(installed (7 none) 60 1 ready)",
            "(installed (7 none) 60 ready)",
        ),
        (
            "(installed (7 none) 60 1 (cold no-parent no-hash))",
            "(installed (7 none) 60 (cold no-parent no-hash))",
        ),
        (
            "(installed (7 0x1111) 60 1 (cold none (decode 3)))",
            "(installed (7 0x1111) 60 (cold none (decode 3)))",
        ),
        (
            "(previous (7 none) 60 10 ready)",
            "(previous (7 none) 60 ready)",
        ),
        (
            "(previous (7 0x1111) 1 1 ready)",
            "(previous (7 0x1111) 1 ready)",
        ),
        (
            "(previous (7 none) 60 1 (cold hash-unknown none))",
            "(previous (7 none) 60 (cold hash-unknown none))",
        ),
    ];

    /// Lines that have no number, or none that a line may write.
    const KEPT: [&str; 28] = [
        "",
        "(view provisional 50 1 abandoned)",
        "(view provisional 50 unprepared)",
        "(view spare 70 1 superseded)",
        "(view spare 70 undelivered)",
        "(installed none)",
        "(previous none)",
        "(current settled (7 none) 0x1111 ((cold no-parent no-hash) 90))",
        "(current settled (7 none) 0x1111 none)",
        "(settled (carried 5))",
        "(settled (cold no-parent no-hash))",
        "(heads (7 none) (7 none) none)",
        "(wait 1 ended (7 none))",
        "(count 1 0 0 1 0 0 0 2 2)",
        "(superseded (6 none))",
        "(ticket 1)",
        "(view installed",
        "(view installed ",
        "(view installed 60 1)",
        "(view previous 60 1",
        "(installed (7",
        "(installed (7 none) 60 1)",
        "(previous (7 none) 60",
        "(view installed 60 01 ready)",
        "(view installed 60 18446744073709551616 ready)",
        "(view installed 60 +1 ready)",
        "(view  installed 60 1 ready)",
        " (view installed 60 1 ready)",
    ];

    fn struck(text: &str) -> String {
        String::from_utf8(without_numbers(text.as_bytes())).unwrap()
    }

    #[test]
    fn the_number_is_struck_with_one_space() {
        for (line, expected) in NUMBERED {
            assert_eq!(struck(line), expected);
            assert_eq!(struck(&format!("{line}\n")), format!("{expected}\n"));
        }
    }

    #[test]
    fn no_other_line_is_changed() {
        for line in KEPT {
            assert_eq!(struck(line), line);
            assert_eq!(struck(&format!("{line}\n")), format!("{line}\n"));
        }
    }

    #[test]
    fn no_readiness_is_struck() {
        for (_, line) in NUMBERED {
            assert_eq!(struck(line), line);
        }
    }

    #[test]
    fn lines_are_struck_one_by_one() {
        let lines = NUMBERED.iter().map(|(line, _)| *line).chain(KEPT);
        let expected = NUMBERED.iter().map(|(_, line)| *line).chain(KEPT);
        let [lines, expected]: [Vec<_>; 2] = [lines.collect(), expected.collect()];
        assert_eq!(struck(&lines.join("\n")), expected.join("\n"));
    }

    const SHEET: &str = "(count 2 0 0 2 0 0 0 3 2)\n\
        (current settled (7 none) 0x1111 ((carried 5) 91))\n\
        (superseded (6 none))\n\
        (installed (7 none) 61 ready)\n\
        (previous (6 0x1111) 60 (cold no-parent none))\n\
        (wait 1 ended (7 none))\n";

    #[test]
    fn numbers_are_put_where_they_are_struck() {
        let numbered = with_numbers(SHEET, [Some(2), Some(1)]);
        assert!(numbered.contains("\n(installed (7 none) 61 2 ready)\n"));
        assert!(numbered.contains("\n(previous (6 0x1111) 60 1 (cold no-parent none))\n"));
        assert_eq!(struck(&numbered), SHEET);
        assert_eq!(with_numbers(SHEET, [None, None]), SHEET);
        let empty = "(installed none)\n(previous none)\n";
        assert_eq!(with_numbers(empty, [Some(2), Some(1)]), empty);
    }

    #[test]
    fn a_line_need_not_be_text() {
        let line = b"(view installed 60 \xff ready)\n\x00\xff";
        assert_eq!(without_numbers(line), line);
        assert_eq!(
            without_numbers(b"(view previous \xff 1 \xfe"),
            b"(view previous \xff \xfe"
        );
    }

    #[test]
    fn what_the_published_code_writes_stays() {
        let (_, answers) = generate(1, &Recipe::default());
        assert_eq!(without_numbers(answers.text()), answers.text());
    }
}
