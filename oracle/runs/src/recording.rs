//! Runs of the published code written down, for a program to replay that needs
//! no Rust.
//!
//! A recording is lines, each marked by its first byte: `#N` begins a run whose
//! nine counters all stand at N; `>CALL` is a line of its script; the `<TEXT`
//! lines right before it are what the published code answered to it. Empty
//! lines of a script are left out.

use crate::generator::{generate, Recipe};
use crate::hashes::vary_case;
use crate::random::Random;
use crate::script::{Script, Transcript};
use crate::tally::Tally;
use harness::{Answer, Oracle, Start, COUNTERS};
use std::fmt::Write;

/// Runs from a new driver, and lines of each.
const RUNS: (u64, usize) = (150, 60);

/// Runs that cross the end of every counter, and random lines of each.
const CROSSING: (u64, usize) = (60, 40);

/// Where the counters of a run stand that crosses their end.
const NEAR_THE_END: u64 = u64::MAX - 20;

/// Damaged lines in a thousand of the random ones.
const MALFORMED: usize = 100;

/// A recording with what it holds.
pub struct Recording {
    pub text: Vec<u8>,
    pub summary: String,
}

/// What was recorded so far.
#[derive(Default)]
struct Writer {
    text: Vec<u8>,
    runs: usize,
    lines: usize,
    tally: Tally,
}

/// Record all runs.
///
/// # Panics
///
/// If a run that is to cross the end of every counter does not.
#[must_use]
pub fn recording() -> Recording {
    let mut writer = Writer::default();
    let (runs, lines) = RUNS;
    for seed in 1..=runs {
        let mut script = random_lines(seed, 0, lines);
        script.push(b"(sheet)");
        writer.put_run(0, &script);
    }
    let (crossing, lines) = CROSSING;
    for seed in runs + 1..=runs + crossing {
        let mut script = random_lines(seed, NEAR_THE_END, lines);
        put_crossing(&mut script, seed);
        script.push(b"(sheet)");
        assert!(crosses(&script), "seed {seed}");
        writer.put_run(NEAR_THE_END, &script);
    }
    let mut summary = String::new();
    writeln!(
        summary,
        "{} runs, {} lines\n\
         seeds 1 to {runs}: {} random lines and a sheet, from a new driver\n\
         seeds {} to {}: {lines} random lines, calls that raise each of the nine counters 21 times, and a sheet, \
         from nine counters at {NEAR_THE_END} (2^64 - 21); each ends with all nine at 2^64 - 1\n\
         {MALFORMED} in a thousand of the random lines are damaged; empty lines are left out\n\
         how often each answer was given:",
        writer.runs,
        writer.lines,
        RUNS.1,
        runs + 1,
        runs + crossing,
    )
    .expect("a String takes every write");
    write!(summary, "{}", writer.tally).expect("a String takes every write");
    Recording {
        text: writer.text,
        summary,
    }
}

impl Writer {
    fn put_run(&mut self, counters: u64, script: &Script) {
        let answers: Transcript = script.answers(start(counters));
        self.text
            .extend_from_slice(format!("#{counters}\n").as_bytes());
        for (index, line) in script.lines().enumerate() {
            for answer in answers.answer(index).split_inclusive(|byte| *byte == b'\n') {
                self.text.push(b'<');
                self.text.extend_from_slice(answer);
            }
            self.text.push(b'>');
            self.text.extend_from_slice(line);
            self.text.push(b'\n');
        }
        self.runs += 1;
        self.lines += script.len();
        self.tally.add(answers.tally());
    }
}

fn start(counters: u64) -> Start {
    Start::from([counters; COUNTERS])
}

/// The random lines of a seed but for the empty ones.
fn random_lines(seed: u64, counters: u64, lines: usize) -> Script {
    let recipe = Recipe {
        lines,
        malformed: MALFORMED,
        start: start(counters),
    };
    let (script, _) = generate(seed, &recipe);
    script.lines().filter(|line| !line.is_empty()).collect()
}

/// Calls of which each round raises every counter.
const ROUND: [&str; 12] = [
    "(deliver (B none) H 0)",
    "(deliver (B none) H 0)",
    "(deliver (A H) H 0)",
    "(apply (B none) SEQ (B none) no-hash 0 0 0)",
    "(claim (A H) SEQ)",
    "(apply (A H) SEQ (A H) none 0 0 0)",
    "(deliver (B H) H 0)",
    "(deliver (A H) H 0)",
    "(deliver (B H) H 0)",
    "(apply (B H) SEQ (B H) none 0 0 0)",
    "(snapshot (B H) 0)",
    "(snapshot (C none) 0)",
];

/// 21 rounds, over blocks and a hash of the seed's own, its digits in random case.
fn put_crossing(script: &mut Script, seed: u64) {
    let mut oracle = Oracle::new(start(NEAR_THE_END));
    for line in script.lines() {
        oracle.answer_line(line);
    }
    let hash = format!("0x{}", format!("{:02x}", seed % 256).repeat(32));
    let mut random = Random::new(seed);
    let block = 10 * seed;
    for _ in 0..21 {
        for call in ROUND {
            let (seq, _) = oracle.sequence();
            let mut line = call
                .replace('H', &hash)
                .replace("SEQ", &seq.to_string())
                .replace('A', &block.to_string())
                .replace('B', &(block + 1).to_string())
                .replace('C', &(block + 3).to_string())
                .into_bytes();
            vary_case(&mut line, &mut random);
            oracle.answer_line(&line);
            script.push(&line);
        }
    }
}

/// Whether the run ends with every counter at its end.
fn crosses(script: &Script) -> bool {
    let mut oracle = Oracle::new(start(NEAR_THE_END));
    for line in script.lines() {
        oracle.answer_line(line);
    }
    let Answer::Stats(stats) = oracle.answer_line(b"(stats)") else {
        return false;
    };
    let (_, claim_epoch) = oracle.sequence();
    let end: [u64; COUNTERS] = Start { stats, claim_epoch }.into();
    end == [u64::MAX; COUNTERS]
}
