//! Runs of a program beside the published code: scripts, comparison, shrinking.

pub mod cases;
pub mod compare;
mod damage;
mod damage_by_rule;
mod damage_of_text;
pub mod damaged;
pub mod filter;
mod forms;
mod generator;
mod hashes;
mod histories;
mod malformed;
pub mod options;
mod probes;
mod program;
pub mod progress;
mod random;
pub mod recording;
pub mod restart;
mod script;
mod scripts;
mod sheet_file;
pub mod sheets;
mod shown;
mod shrink;
mod tally;

pub use generator::{generate, Recipe};
pub use program::Program;
pub use script::{Script, Transcript};
pub use scripts::{Case, Scripts};
pub use shown::Spoil;
pub use tally::Tally;
