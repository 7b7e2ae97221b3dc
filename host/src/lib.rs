//! The head driver, proved in Rattle, as a Rust library.
//!
//! A driver follows a chain's newest blocks and says of each whether its values are loaded
//! (*ready*) or have to be fetched (*cold*). It is called by lines and answers by lines;
//! `docs/HEADSCRIPT.md` has every call and every answer. This package links the static library
//! that the crate `temsroi` is built into and wraps its two C functions:
//!
//! - [`Driver`] owns a driver's state sheet and gives answers as values of [`Answer`];
//! - [`raw`] makes the same calls on buffers that the caller lends.
//!
//! ```
//! use temsroi::{Answer, Driver, Readiness, Source};
//!
//! let mut driver = Driver::new();
//! let zeros = format!("0x{}", "0".repeat(64));
//!
//! let answer = driver.call(format!("(deliver (7 none) {zeros} 50)"))?;
//! assert_eq!(answer, Answer::Ticket(1));
//!
//! // Nothing is installed below block 7, and it has no hash to ask a list for: it settles cold.
//! let answer = driver.call("(apply (7 none) 1 (7 none) no-hash 60 0 90)")?;
//! assert_eq!(answer.to_string(), "(settled (cold no-parent no-hash))");
//!
//! let Answer::View(view) = driver.call("(snapshot (7 none) 51)")? else {
//!     panic!("a snapshot is answered with a view");
//! };
//! assert_eq!(view.source, Source::Installed { settle: 1 });
//! assert_ne!(view.readiness, Readiness::Ready);
//!
//! // The sheet is the whole driver: one that is put back from it is equal, and goes on alike.
//! let back = Driver::from_sheet(driver.sheet())?;
//! assert_eq!(back, driver);
//! # Ok::<(), Box<dyn std::error::Error>>(())
//! ```
//!
//! # Threads
//!
//! The library keeps nothing between calls, allocates no memory and uses no lock and no thread.
//! Calls on different drivers may run at the same time on any threads. One driver that several
//! threads use needs a lock around each whole call, which `&mut self` asks for; whatever is read
//! out of an answer and has to fit the driver at that moment, such as a ticket, is read in the same
//! lock turn. The example `desk` shows it.

mod answer;
mod display;
mod driver;
#[allow(unsafe_code)]
mod ffi;
pub mod raw;
mod read;

pub use answer::{
    Anchor, Answer, Cold, End, Hash, Heads, Link, Outcome, Readiness, Refusal, Report, Skip,
    Source, Stats, View,
};
pub use driver::{CallError, Driver};
pub use read::ParseError;

/// The fewest bytes that a sheet buffer has to have. Every sheet is shorter.
pub const SHEET_BYTES: usize = 4096;

/// The fewest bytes that an answer buffer has to have. Every answer is shorter.
pub const ANSWER_BYTES: usize = 512;
