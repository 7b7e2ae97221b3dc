//! A program under comparison.

use harness::{Start, COUNTERS};
use std::fmt::{self, Display, Formatter};
use std::io::{self, Read, Write};
use std::process::{Child, Command, Stdio};
use std::sync::mpsc::{self, RecvTimeoutError};
use std::thread;
use std::time::Duration;

/// A program that still runs after this long is ended.
const TIME_LIMIT: Duration = Duration::from_secs(120);

/// Output is cut off so many bytes after twice the expected length, so that a
/// program that prints without end does not fill the memory.
const OUTPUT_MARGIN: u64 = 1 << 20;

/// What a pipe surely holds.
const PIPE: usize = 1 << 16;

/// A command line that reads lines and prints answers. Each run is a new
/// process, and so a new driver.
#[derive(Clone, Debug)]
pub struct Program {
    command: Vec<String>,
}

/// What a run printed, and how it ended if it did not end well.
pub struct Run {
    pub output: Vec<u8>,
    pub failure: Option<Failure>,
}

/// How a run ended badly.
pub enum Failure {
    /// It was still running at the time limit.
    EndedByLimit,
    /// It ended with this status, or reading its output failed so.
    Status(String),
}

impl Display for Failure {
    fn fmt(&self, f: &mut Formatter) -> fmt::Result {
        match self {
            Self::EndedByLimit => write!(f, "still running after {} s", TIME_LIMIT.as_secs()),
            Self::Status(status) => f.write_str(status),
        }
    }
}

/// The command's first word, which names the program.
impl Display for Program {
    fn fmt(&self, f: &mut Formatter) -> fmt::Result {
        f.write_str(&self.command[0])
    }
}

impl Program {
    /// # Errors
    ///
    /// One line, if there is no word in the command.
    pub fn new(command: Vec<String>) -> Result<Self, String> {
        if command.is_empty() {
            return Err("no PROGRAM is given".to_owned());
        }
        Ok(Self { command })
    }

    /// The program told to start from `start`, if that is not a new driver.
    #[must_use]
    pub fn starting_at(mut self, start: Start) -> Self {
        if start != Start::default() {
            self.command.push("--count".to_owned());
            let counters: [u64; COUNTERS] = start.into();
            self.command.extend(counters.iter().map(u64::to_string));
        }
        self
    }

    /// The program told to start from the sheet in `file`.
    #[must_use]
    pub(crate) fn starting_from(&self, file: &str) -> Self {
        let mut started = self.clone();
        started.command.push(file.to_owned());
        started
    }

    /// Run the program on `input`, to which `expected` bytes should come out.
    /// Input is written while output is read, so neither side waits for a full
    /// pipe.
    ///
    /// # Errors
    ///
    /// One line, if the program cannot be started.
    pub fn run(&self, input: &[u8], expected: usize) -> Result<Run, String> {
        let mut child = self.start()?;
        let mut stdin = child.stdin.take().expect("standard input is piped");
        let stdout = child.stdout.take().expect("standard output is piped");
        let limit = 2 * expected as u64 + OUTPUT_MARGIN;
        let (finished, watch) = mpsc::channel::<()>();
        thread::scope(|scope| {
            // A program may stop reading early; what it printed tells.
            scope.spawn(move || {
                let _ = stdin.write_all(input);
            });
            let ended = scope.spawn(move || wait(child, &watch));
            let mut output = Vec::new();
            let read = stdout.take(limit).read_to_end(&mut output);
            drop(finished);
            let ended = ended.join().expect("the waiting thread does not panic");
            let failure = read
                .and(ended)
                .unwrap_or_else(|error| Some(Failure::Status(error.to_string())));
            Ok(Run { output, failure })
        })
    }

    /// What the program prints on an input that a pipe holds whole.
    ///
    /// # Errors
    ///
    /// One line, if the program cannot be started or ends badly.
    ///
    /// # Panics
    ///
    /// If the input is longer.
    pub fn answers(&self, input: &[u8]) -> Result<Vec<u8>, String> {
        assert!(input.len() <= PIPE, "{} bytes", input.len());
        let run = self.heard(input, 0)?;
        match run.failure {
            None => Ok(run.output),
            Some(failure) => Err(format!("{self} ended with {failure}")),
        }
    }

    /// Run the program on `input`, to which `expected` bytes should come out. An
    /// input that a pipe holds whole needs no thread, so many short runs go
    /// quickly, but then there is no time limit.
    ///
    /// # Errors
    ///
    /// One line, if the program cannot be started.
    pub(crate) fn heard(&self, input: &[u8], expected: usize) -> Result<Run, String> {
        if input.len() > PIPE {
            return self.run(input, expected);
        }
        let mut child = self.start()?;
        let mut stdin = child.stdin.take().expect("standard input is piped");
        // A program may stop reading early; what it printed tells.
        let _ = stdin.write_all(input);
        drop(stdin);
        let mut output = Vec::new();
        let mut stdout = child.stdout.take().expect("standard output is piped");
        let read = stdout.read_to_end(&mut output);
        let failure = match read.and_then(|_| child.wait()) {
            Ok(status) if status.success() => None,
            Ok(status) => Some(Failure::Status(status.to_string())),
            Err(error) => Some(Failure::Status(error.to_string())),
        };
        Ok(Run { output, failure })
    }

    fn start(&self) -> Result<Child, String> {
        Command::new(&self.command[0])
            .args(&self.command[1..])
            .stdin(Stdio::piped())
            .stdout(Stdio::piped())
            .spawn()
            .map_err(|error| format!("{self} cannot be started: {error}"))
    }
}

/// Wait until the output has ended and the process too, or end the process at
/// the time limit.
fn wait(mut child: Child, watch: &mpsc::Receiver<()>) -> io::Result<Option<Failure>> {
    if watch.recv_timeout(TIME_LIMIT) == Err(RecvTimeoutError::Timeout) {
        child.kill()?;
        child.wait()?;
        return Ok(Some(Failure::EndedByLimit));
    }
    let status = child.wait()?;
    Ok((!status.success()).then(|| Failure::Status(status.to_string())))
}
