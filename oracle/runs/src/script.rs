//! Scripts and what the published code answers to them.

use crate::tally::Tally;
use harness::{Answer, Oracle, Start};
use std::ops::Range;

/// Lines of input. A line holds no line feed; the last may lack its own.
#[derive(Clone, Debug, Default, PartialEq, Eq)]
pub struct Script {
    text: Vec<u8>,
    ends: Vec<usize>,
}

impl Script {
    pub fn push(&mut self, line: &[u8]) {
        self.text.extend_from_slice(line);
        self.text.push(b'\n');
        self.ends.push(self.text.len());
    }

    /// Take the line feed from the last line. An empty last line stays as it
    /// is, since without its line feed it would be no line.
    pub fn drop_last_feed(&mut self) {
        let last_length = self.len().checked_sub(1).map(|last| self.line(last).len());
        if last_length.is_some_and(|length| length > 0) {
            self.text.pop();
            *self.ends.last_mut().expect("there is a last line") -= 1;
        }
    }

    #[must_use]
    pub fn ends_in_feed(&self) -> bool {
        self.text.last().is_none_or(|byte| *byte == b'\n')
    }

    /// How many lines there are.
    #[must_use]
    pub fn len(&self) -> usize {
        self.ends.len()
    }

    #[must_use]
    pub fn is_empty(&self) -> bool {
        self.ends.is_empty()
    }

    #[must_use]
    pub fn text(&self) -> &[u8] {
        &self.text
    }

    /// One line without its line feed.
    #[must_use]
    pub fn line(&self, index: usize) -> &[u8] {
        let line = self.whole(index);
        line.strip_suffix(b"\n").unwrap_or(line)
    }

    /// One line with its line feed, if it has one.
    #[must_use]
    pub(crate) fn whole(&self, index: usize) -> &[u8] {
        &self.text[span(&self.ends, index)]
    }

    pub fn lines(&self) -> impl Iterator<Item = &[u8]> {
        (0..self.len()).map(|index| self.line(index))
    }

    /// What the published code answers.
    #[must_use]
    pub fn answers(&self, start: Start) -> Transcript {
        let mut oracle = Oracle::new(start);
        let mut transcript = Transcript::default();
        for line in self.lines() {
            transcript.push(&oracle.answer_line(line));
        }
        transcript
    }
}

impl<'a> FromIterator<&'a [u8]> for Script {
    fn from_iter<I: IntoIterator<Item = &'a [u8]>>(lines: I) -> Self {
        let mut script = Self::default();
        for line in lines {
            script.push(line);
        }
        script
    }
}

/// The answers to a script, line by line of the script.
#[derive(Clone, Debug, Default)]
pub struct Transcript {
    text: Vec<u8>,
    ends: Vec<usize>,
    tally: Tally,
}

impl Transcript {
    pub fn push(&mut self, answer: &Answer) {
        answer.write(&mut self.text);
        self.ends.push(self.text.len());
        self.tally.count(answer);
    }

    /// How often each kind of answer stands in it.
    #[must_use]
    pub const fn tally(&self) -> &Tally {
        &self.tally
    }

    #[must_use]
    pub fn text(&self) -> &[u8] {
        &self.text
    }

    /// What stands for one line of the script, line feeds with.
    #[must_use]
    pub fn answer(&self, index: usize) -> &[u8] {
        &self.text[span(&self.ends, index)]
    }

    /// What another program printed on the same script, cut into answers of as many lines as
    /// these have.
    #[must_use]
    pub fn printed_by_another(&self, text: Vec<u8>) -> Self {
        let mut lines = text.split_inclusive(|byte| *byte == b'\n').map(<[u8]>::len);
        let mut ends = Vec::with_capacity(self.ends.len());
        let mut end = 0;
        for index in 0..self.ends.len() {
            let count = self
                .answer(index)
                .iter()
                .filter(|byte| **byte == b'\n')
                .count();
            end += lines.by_ref().take(count).sum::<usize>();
            ends.push(end);
        }
        Self {
            text,
            ends,
            tally: Tally::default(),
        }
    }

    /// The script line whose answer holds the first byte where `other` differs.
    #[must_use]
    pub fn first_difference(&self, other: &[u8]) -> Option<usize> {
        if self.text == other {
            return None;
        }
        let equal = self
            .text
            .iter()
            .zip(other)
            .take_while(|(a, b)| a == b)
            .count();
        let line = self.ends.partition_point(|end| *end <= equal);
        // Output that goes on after the last answer differs at the last line.
        Some(line.min(self.ends.len().saturating_sub(1)))
    }
}

fn span(ends: &[usize], index: usize) -> Range<usize> {
    let start = index.checked_sub(1).map_or(0, |before| ends[before]);
    start..ends[index]
}

#[cfg(test)]
mod tests {
    use super::*;

    #[test]
    fn another_text_is_cut_by_the_answers_lines() {
        let lines: [&[u8]; 3] = [b"(sheet)", b"(stats)", b"(report)"];
        let answers = Script::from_iter(lines).answers(Start::default());
        let text = b"a\nb\nc\nd\ne\nf\n(report none)\n";
        let other = answers.printed_by_another(text.to_vec());
        assert_eq!(other.answer(0), b"a\nb\nc\nd\ne\n");
        assert_eq!(other.answer(1), b"f\n");
        assert_eq!(other.answer(2), b"(report none)\n");
        assert_eq!(other.first_difference(b"a\nb\nc\nd\ne\nF\n"), Some(1));
        let short = answers.printed_by_another(b"a\n".to_vec());
        assert_eq!(short.answer(2), b"");
    }
}
