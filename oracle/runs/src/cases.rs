//! The cases of document 01, Job 1 and Job 3: `cases.txt` read.

use crate::filter::without_numbers;
use crate::program::Program;
use std::fmt::Write;

const CASES: &str = include_str!("../cases.txt");

/// The letters that stand for hashes of two digits 32 times.
const HASHES: [(&str, &str); 6] = [
    ("Z", "00"),
    ("Y", "11"),
    ("W", "22"),
    ("V", "ab"),
    ("U", "AB"),
    ("T", "aB"),
];

/// A case: what goes in and what must come out.
pub struct Case {
    pub name: &'static str,
    pub input: String,
    pub output: String,
}

/// The cases in the file's order.
#[must_use]
pub fn cases() -> Vec<Case> {
    let mut cases: Vec<Case> = Vec::new();
    for line in CASES.lines() {
        if let Some(name) = line.strip_prefix("= ") {
            cases.push(Case {
                name,
                input: String::new(),
                output: String::new(),
            });
        } else if let Some(case) = cases.last_mut() {
            case.add(line);
        }
    }
    cases
}

impl Case {
    fn add(&mut self, line: &str) {
        if let Some(call) = line.strip_prefix("> ") {
            put(&mut self.input, call);
        } else if let Some(answer) = line.strip_prefix("< ") {
            put(&mut self.output, answer);
        }
    }

    /// The case for a program that writes no settle numbers, as the published code does not.
    #[must_use]
    pub fn without_numbers(self) -> Self {
        let output = without_numbers(self.output.as_bytes());
        Self {
            output: String::from_utf8(output).expect("a text with words left out is a text"),
            ..self
        }
    }

    /// What is wrong with the program's answers, if anything is.
    ///
    /// # Errors
    ///
    /// One line, if the program cannot be started.
    pub fn fault(&self, program: &Program) -> Result<Option<String>, String> {
        let run = program.run(self.input.as_bytes(), self.output.len())?;
        if run.output == self.output.as_bytes() {
            return Ok(run.failure.map(|failure| failure.to_string()));
        }
        let printed = String::from_utf8_lossy(&run.output);
        Ok(Some(first_difference(&self.output, &printed)))
    }
}

/// A line of `text` with the letters for hashes written out.
fn put(text: &mut String, line: &str) {
    let mut line = line.to_owned();
    for (letter, digits) in HASHES {
        line = line.replace(letter, &format!("0x{}", digits.repeat(32)));
    }
    text.push_str(&line);
    text.push('\n');
}

fn first_difference(expected: &str, printed: &str) -> String {
    let mut expected = expected.lines();
    let mut printed = printed.lines();
    let mut number = 1;
    loop {
        let (wanted, got) = (expected.next(), printed.next());
        if wanted != got || wanted.is_none() {
            let mut text = format!("answer line {number}\n");
            for (side, line) in [("expected", wanted), ("printed", got)] {
                let line = line.unwrap_or("nothing more");
                writeln!(text, "  {side}: {line}").expect("a String takes every write");
            }
            return text;
        }
        number += 1;
    }
}

#[cfg(test)]
mod tests {
    use super::*;
    use crate::script::Script;
    use harness::Start;

    #[test]
    fn the_published_code_answers_so_but_for_settle_numbers() {
        for case in cases().into_iter().map(Case::without_numbers) {
            let script: Script = case.input.lines().map(str::as_bytes).collect();
            let answers = script.answers(Start::default());
            assert_eq!(answers.text(), case.output.as_bytes(), "{}", case.name);
        }
    }

    #[test]
    fn example_edges_traps_and_jobs_are_all_there() {
        let names: Vec<_> = cases().iter().map(|case| case.name).collect();
        assert_eq!(names[0], "worked example");
        for (edge, name) in (1..=12).zip(&names[1..]) {
            assert!(name.starts_with(&format!("E{edge} ")), "{name}");
        }
        let traps = names.iter().filter(|name| name.starts_with("trap: "));
        assert_eq!(traps.count(), 5);
        for job in ["Job 1: ", "Job 3: "] {
            let of_job = names.iter().filter(|name| name.starts_with(job));
            assert_eq!(of_job.count(), 2, "{job}");
        }
    }
}
