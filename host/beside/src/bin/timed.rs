//! `timed`: the same calls through the library's C call and through the published Rust, and where
//! the library's time goes. Nanoseconds for a call, the best of three, taken by turns.

use beside::Buffers;
use harness::{Call, Oracle};
use runs::{generate, Recipe, Script};
use std::env;
use std::hint::black_box;
use std::process::ExitCode;
use std::time::Instant;
use temsroi::Driver;

const USAGE: &str = "usage: timed [CALLS [SEED]]; 1000000 calls and seed 1 if not told otherwise";

/// How often one call is made whose time is taken by itself.
const ALONE: usize = 50_000;

const ROUNDS: usize = 3;

/// A waiter waits for this block, or did.
const ANCHOR: &str =
    "(18446744073709551614 0xdddddddddddddddddddddddddddddddddddddddddddddddddddddddddddddddd)";

const PARENT: &str = "0xcccccccccccccccccccccccccccccccccccccccccccccccccccccccccccccccc";

fn main() -> ExitCode {
    let Some((calls, seed)) = arguments() else {
        eprintln!("{USAGE}");
        return ExitCode::from(2);
    };
    let run = Run::new(calls, seed);
    let (mean, longest) = run.sheets();
    println!("{calls} calls of seed {seed}; sheets of {mean} bytes in the mean, {longest} at most");
    let mut measures = run.measures();
    for _ in 0..ROUNDS {
        measures.iter_mut().for_each(Measure::take);
    }
    for measure in &measures {
        println!("{:9.0} ns  {}", measure.best, measure.name);
    }
    let [ours, _, typed, text, ..] = measures.as_slice() else {
        unreachable!("these stand first");
    };
    for theirs in [typed, text] {
        println!(
            "{:9.1}     {} / {}",
            ours.best / theirs.best,
            ours.name,
            theirs.name
        );
    }
    ExitCode::SUCCESS
}

/// Something whose time is taken.
struct Measure<'a> {
    name: String,
    run: Box<dyn Fn() -> f64 + 'a>,
    best: f64,
}

impl<'a> Measure<'a> {
    fn new(name: &str, run: impl Fn() -> f64 + 'a) -> Self {
        Self {
            name: name.to_owned(),
            run: Box::new(run),
            best: f64::INFINITY,
        }
    }

    /// One call that leaves this sheet as it is.
    fn alone(name: &str, sheet: &[u8], line: &'static [u8]) -> Self {
        let sheet = sheet.to_vec();
        let name = format!("{name}, {} bytes", sheet.len());
        Self::new(&name, move || alone(&sheet, line))
    }

    fn take(&mut self) {
        self.best = self.best.min((self.run)());
    }
}

fn arguments() -> Option<(usize, u64)> {
    let arguments: Vec<String> = env::args().skip(1).collect();
    let (calls, seed) = match arguments.as_slice() {
        [] => (1_000_000, 1),
        [calls] => (calls.parse().ok()?, 1),
        [calls, seed] => (calls.parse().ok()?, seed.parse().ok()?),
        _ => return None,
    };
    (calls > 0).then_some((calls, seed))
}

/// Nanoseconds for each of `count` calls.
fn timed(count: usize, run: impl FnOnce()) -> f64 {
    let start = Instant::now();
    run();
    start.elapsed().as_nanos() as f64 / count as f64
}

/// The calls of a seed, as lines and as values.
struct Run {
    script: Script,
    calls: Vec<Call>,
}

impl Run {
    /// Well-formed calls without a sheet.
    fn new(count: usize, seed: u64) -> Self {
        let recipe = Recipe {
            lines: count + count / 4 + 100,
            malformed: 0,
            ..Recipe::default()
        };
        let (all, _) = generate(seed, &recipe);
        let calls = all.lines().filter(|line| *line != b"(sheet)").take(count);
        let script: Script = calls.collect();
        assert_eq!(script.len(), count, "a sheet is one line in sixteen");
        let read = |line| Call::read(line).expect("no line is malformed");
        let calls = script.lines().map(read).collect();
        Self { script, calls }
    }

    /// The mean and the longest sheet that stands before a call.
    fn sheets(&self) -> (usize, usize) {
        let mut buffers = Buffers::default();
        let (mut sum, mut longest) = (0, 0);
        for line in self.script.lines() {
            let length = buffers.sheet().len();
            sum += length;
            longest = longest.max(length);
            assert_eq!(buffers.call(line), 0);
        }
        (sum / self.calls.len(), longest)
    }

    fn measures(&self) -> Vec<Measure<'_>> {
        let new = new_sheet();
        let parked = sheet_with_waiters(false);
        let given_up = sheet_with_waiters(true);
        let unended = &given_up[..given_up.len() - 1];
        vec![
            Measure::new("C call", || self.ours()),
            Measure::new("Driver::call, the answer parsed", || self.driver()),
            Measure::new("published Rust, calls parsed beforehand", || self.typed()),
            Measure::new("published Rust, lines read and answers written", || {
                self.text()
            }),
            Measure::new("temsroi_new", renewed),
            Measure::alone("refused 5, a buffer of zeros", b"", b"(stats)"),
            Measure::alone("refused 1, an empty line, a new driver", &new, b""),
            Measure::alone("(stats), a new driver", &new, b"(stats)"),
            Measure::alone("(stats), sixteen waiters parked", &parked, b"(stats)"),
            Measure::alone(
                "(stats), sixteen waiters with a block",
                &given_up,
                b"(stats)",
            ),
            Measure::alone("refused 5, the last byte is missing", unended, b"(stats)"),
        ]
    }

    fn ours(&self) -> f64 {
        let mut buffers = Buffers::default();
        timed(self.calls.len(), || {
            for line in self.script.lines() {
                black_box(buffers.call(line));
            }
        })
    }

    fn driver(&self) -> f64 {
        let mut driver = Driver::new();
        timed(self.calls.len(), || {
            for line in self.script.lines() {
                black_box(driver.call(line).expect("every call has an answer"));
            }
        })
    }

    fn typed(&self) -> f64 {
        let mut oracle = Oracle::default();
        timed(self.calls.len(), || {
            for call in &self.calls {
                black_box(oracle.step(*call));
            }
        })
    }

    fn text(&self) -> f64 {
        let mut oracle = Oracle::default();
        let mut text = Vec::with_capacity(temsroi::ANSWER_BYTES);
        timed(self.calls.len(), || {
            for line in self.script.lines() {
                text.clear();
                oracle.answer_line(line).write(&mut text);
                black_box(&text);
            }
        })
    }
}

/// One call that leaves the sheet as it is, over and over.
fn alone(sheet: &[u8], line: &[u8]) -> f64 {
    let mut buffers = Buffers::with_sheet(sheet);
    let nanoseconds = timed(ALONE, || {
        for _ in 0..ALONE {
            black_box(buffers.call(black_box(line)));
        }
    });
    assert_eq!(buffers.sheet(), sheet, "the call changes nothing");
    nanoseconds
}

fn renewed() -> f64 {
    let mut buffers = Buffers::default();
    timed(ALONE, || {
        for _ in 0..ALONE {
            black_box(buffers.renew());
        }
    })
}

fn new_sheet() -> Vec<u8> {
    Buffers::default().sheet().to_vec()
}

/// A head with sixteen waiters; where its preparation was given up, each shows its block.
fn sheet_with_waiters(given_up: bool) -> Vec<u8> {
    let mut buffers = Buffers::default();
    let mut lines = vec![
        format!("(deliver {ANCHOR} {PARENT} 50)"),
        format!("(claim {ANCHOR} 1)"),
    ];
    lines.extend((0..16).map(|waiter| format!("(wait {waiter} {ANCHOR} 52)")));
    if given_up {
        lines.push("(release 1 1)".to_owned());
    }
    for line in lines {
        assert_eq!(buffers.call(line.as_bytes()), 0);
        assert!(!buffers.answer().starts_with(b"(refused"), "{line}");
    }
    buffers.sheet().to_vec()
}
