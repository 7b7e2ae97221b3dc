//! Progress on a terminal; silence elsewhere.

use std::io::{self, IsTerminal, Write};
use std::time::{Duration, Instant};

const EVERY: Duration = Duration::from_millis(200);

pub struct Progress {
    terminal: bool,
    started: Instant,
    shown: Option<Instant>,
}

impl Default for Progress {
    fn default() -> Self {
        Self {
            terminal: io::stderr().is_terminal(),
            started: Instant::now(),
            shown: None,
        }
    }
}

impl Progress {
    /// Say where a run is and how many lines it has behind it.
    pub fn show(&mut self, place: &str, lines: usize) {
        let recent = self.shown.is_some_and(|shown| shown.elapsed() < EVERY);
        if !self.terminal || recent {
            return;
        }
        self.shown = Some(Instant::now());
        let pace = lines as f64 / self.elapsed().as_secs_f64().max(0.001);
        eprint!("\r\x1b[K{place}, {lines} lines, {pace:.0} a second");
        let _ = io::stderr().flush();
    }

    /// Clear the progress line.
    pub fn clear(&mut self) {
        if self.shown.take().is_some() {
            eprint!("\r\x1b[K");
        }
    }

    #[must_use]
    pub fn elapsed(&self) -> Duration {
        self.started.elapsed()
    }
}
