//! `beside`: random lines through the library's C call and through the published Rust, in one
//! process. Answers and sheets must be the same, settle numbers struck out, which the Rust has not.
//!
//! Each seed gives a script of 20,000 lines, half of them malformed in every tenth; every fifth
//! starts with its counters near 2^64 - 1. Before every two-hundredth line stands the same with a
//! line feed inside, which no script can have.

use beside::Buffers;
use harness::{Call, Oracle, Start, COUNTERS};
use runs::filter::without_numbers;
use runs::{generate, Recipe};
use std::env;
use std::process::ExitCode;

const USAGE: &str =
    "usage: beside [FROM TO], the first and the last seed; 1 250 if not told otherwise";

/// Where counters start that are to reach their end.
const NEAR_THE_END: u64 = u64::MAX - 20;

/// So many differences are printed.
const SHOWN: usize = 10;

fn main() -> ExitCode {
    let Some((from, to)) = seeds() else {
        eprintln!("{USAGE}");
        return ExitCode::from(2);
    };
    let mut beside = Beside::default();
    for seed in from..=to {
        beside.script(seed);
    }
    let Beside {
        lines,
        sheets,
        differences,
    } = beside;
    println!(
        "{} scripts, {lines} lines, {sheets} sheets, {differences} differences",
        to - from + 1
    );
    ExitCode::from(u8::from(differences > 0))
}

fn seeds() -> Option<(u64, u64)> {
    let arguments: Vec<String> = env::args().skip(1).collect();
    let (from, to) = match arguments.as_slice() {
        [] => (1, 250),
        [from, to] => (from.parse().ok()?, to.parse().ok()?),
        _ => return None,
    };
    (from <= to).then_some((from, to))
}

/// What was compared so far.
#[derive(Default)]
struct Beside {
    lines: usize,
    sheets: usize,
    differences: usize,
}

impl Beside {
    /// Compare one script, up to its first difference: after that the two drivers stand elsewhere.
    fn script(&mut self, seed: u64) {
        let start = if seed % 5 == 0 { NEAR_THE_END } else { 0 };
        let recipe = Recipe {
            malformed: if seed % 10 == 1 { 500 } else { 50 },
            start: Start::from([start; COUNTERS]),
            ..Recipe::default()
        };
        let (script, _) = generate(seed, &recipe);
        let mut pair = Pair {
            ours: Buffers::with_sheet(first_sheet(start).as_bytes()),
            theirs: Oracle::new(recipe.start),
            text: Vec::new(),
        };
        let last: &[u8] = b"(sheet)";
        for (index, line) in script.lines().chain([last]).enumerate() {
            let mut same = Ok(());
            if index % 200 == 199 {
                let mut broken = line.to_vec();
                broken.insert(index * 31 % (line.len() + 1), b'\n');
                same = self.line(&mut pair, &broken);
            }
            if let Err(difference) = same.and_then(|()| self.line(&mut pair, line)) {
                self.differences += 1;
                if self.differences <= SHOWN {
                    println!("seed {seed}, line {}: {difference}", index + 1);
                }
                return;
            }
        }
    }

    fn line(&mut self, pair: &mut Pair, line: &[u8]) -> Result<(), String> {
        self.lines += 1;
        self.sheets += usize::from(line == b"(sheet)");
        let line_and = |difference| format!("{}\n{difference}", String::from_utf8_lossy(line));
        pair.line(line).map_err(line_and)
    }
}

/// The sheet of a driver with nothing but counters.
fn first_sheet(count: u64) -> String {
    let counts = format!(" {count}").repeat(COUNTERS);
    format!(
        "(count{counts})\n\
         (current none)\n\
         (superseded none)\n\
         (installed none)\n\
         (previous none)\n"
    )
}

/// A driver of the library and one of the published Rust, which hear the same lines.
struct Pair {
    ours: Buffers,
    theirs: Oracle,
    /// What the published Rust wrote last.
    text: Vec<u8>,
}

impl Pair {
    /// Make one call of both. The error shows what each gave, where it is not the same.
    fn line(&mut self, line: &[u8]) -> Result<(), String> {
        self.text.clear();
        self.theirs.answer_line(line).write(&mut self.text);
        let number = self.ours.call(line);
        if number != 0 {
            return Err(format!("  the library returned {number}"));
        }
        if Call::read(line) == Some(Call::Sheet) {
            self.same(b"(done)\n", self.ours.answer())?;
            return self.same(&self.text, &without_numbers(self.ours.sheet()));
        }
        self.same(&self.text, &without_numbers(self.ours.answer()))
    }

    fn same(&self, theirs: &[u8], ours: &[u8]) -> Result<(), String> {
        if theirs == ours {
            return Ok(());
        }
        let [theirs, ours] = [theirs, ours].map(String::from_utf8_lossy);
        Err(format!("  the Rust     {theirs}  the library  {ours}"))
    }
}
